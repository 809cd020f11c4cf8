#!/usr/bin/env python3
"""Makes eight feeds of 16,384 lines each, for `lines.sh`.

    bench/lines.py MARKETS BYTES SEED FOLDER

Each feed has 256 match names of BYTES bytes, which begin alike. Of 100 lines about 84 are quotes, 5 withdrawals, 10 blank
lines or comments or quotes once more as they stand, and 1 is refused. With MARKETS `all` all three markets are quoted, at
most 8 selections of a match stand at a time, and the feed ends by withdrawing them, so that next to nothing is left to
judge. With `1x2` the results alone are quoted, and stand. Writes `0.feed` to `7.feed`, and `refused`: how many lines of
all feeds are to be refused.
"""

import pathlib
import random
import sys

FEEDS, LINES, MATCHES, MOST_STANDING = 8, 16_384, 256, 8
RULES = ["void", "score", "decided"]
PREFIX = "eastern-league_spring-round."
RESULTS = {"1x2 home": 2.2, "1x2 draw": 3.5, "1x2 away": 3.85}


def names(size):
    numbered = [f"{PREFIX}m{k:03}" for k in range(MATCHES)]
    return [name[len(name) - size :] for name in numbered]


def line_text(line):
    return f"{'-' if line < 0 else ''}{abs(line) // 4}.{abs(line) % 4 * 25:02}"


def selections(markets):
    """The spellings of all selections, with odds that are about fair."""
    if markets == "1x2":
        return RESULTS
    handicaps = {f"ah {line_text(line)} {side}": 2.0 for line in range(-20, 21) for side in ("home", "away")}
    totals = {f"total {line_text(line)} {side}": 2.0 for line in range(2, 31) for side in ("over", "under")}
    return RESULTS | handicaps | totals


def refused(chance, match):
    """A line with one mistake."""
    return chance.choice([
        f"quote {match} 1x2 home 2.100",
        f"quote {match} 1x2 home 2.100 500 500",
        f"quote {match} 1x2 nobody 2.100 500",
        f"quote {match} 1x2 home 0.950 500",
        f"quote {match} 1x2 home 2,100 500",
        f"quote {match} 1x2 home 2.100 0",
        f"quote {match} ah 9.25 home 2.100 500",
        f"quote {match} total 2.3 over 2.100 500",
        f"quote m/s 1x2 home 2.100 500",
        f"qoute {match} 1x2 home 2.100 500",
        f"withdraw {match} btts yes",
    ])


class Feed:
    def __init__(self, markets, size, chance):
        self.odds, self.matches, self.chance = selections(markets), names(size), chance
        self.spellings = list(self.odds)
        self.standing = {match: [] for match in self.matches}
        self.count = self.refused = 0

    def quote(self, match, selection):
        odds = self.odds[selection] * 0.96 * self.chance.uniform(0.95, 1.05)
        return f"quote {match} {selection} {odds:.{self.chance.randint(2, 3)}f} {1000 * self.chance.randint(1, 100)}"

    def withdraw(self, match):
        stands = self.standing[match]
        self.count -= 1
        return f"withdraw {match} {stands.pop(self.chance.randrange(len(stands)))}"

    def line(self):
        """The next line of all but the last ones."""
        match, kind = self.chance.choice(self.matches), self.chance.randrange(100)
        stands = self.standing[match]
        if kind == 0:
            self.refused += 1
            return refused(self.chance, match)
        if kind < 3:
            return self.chance.choice(["", f"# {match} is delayed"])
        if kind < 8 and stands:
            return self.withdraw(match)
        selection = self.chance.choice(self.spellings)
        if selection in stands or len(stands) == MOST_STANDING or (stands and kind < 50):
            return self.quote(match, self.chance.choice(stands))
        stands.append(selection)
        self.count += 1
        return self.quote(match, selection)


def main():
    markets, size, seed, folder = sys.argv[1], int(sys.argv[2]), int(sys.argv[3]), pathlib.Path(sys.argv[4])
    chance = random.Random(seed)
    folder.mkdir(parents=True, exist_ok=True)
    all_refused = 0
    for k in range(FEEDS):
        feed = Feed(markets, size, chance)
        lines = [f"feed 1 book{k} {RULES[k % 3]}"]
        while len(lines) + (feed.count if markets == "all" else 0) < LINES:
            lines.append(feed.line())
        while len(lines) < LINES:
            lines.append(feed.withdraw(next(match for match in feed.matches if feed.standing[match])))
        (folder / f"{k}.feed").write_text("\n".join(lines[:LINES]) + "\n")
        all_refused += feed.refused
    (folder / "refused").write_text(f"{all_refused}\n")


main()
