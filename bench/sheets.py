#!/usr/bin/env python3
"""Makes a sheet of offers on one match, and its homogeneous program, for `programs.sh`.

    bench/sheets.py OFFERS SEED GRAIN FOLDER

The offers are distinct selections at feeds of up to 32 offers each, with the feeds' rules by turns. Their odds are near
the fair odds of independent Poisson goals, in steps of GRAIN thousandths, with a margin of 4 in 100 and noise of 2 in 100.
Writes the feeds `f0.feed` and so on, and `program.txt`: the columns, the rows, the coefficients by rows, and the right
sides. It settles the bets by itself, as docs/SETTLEMENT.md says, and shares no code with the crates.
"""

import math
import pathlib
import random
import sys

RULES = ["void", "score", "decided"]
HOME_GOALS, AWAY_GOALS = 1.5, 1.2


def scores():
    """One score for each way in which all bets settle."""
    low = [(h, total - h) for total in range(8) for h in range(total + 1)]
    return low + [((8 + d % 2 + d) // 2, (8 + d % 2 - d) // 2) for d in range(-6, 7)]


def selections():
    """A market, its line in quarters of a goal, and a side, in the order in which a sheet has them."""
    plain = [("1x2", 0, side) for side in ("home", "draw", "away")]
    handicaps = [("ah", line, side) for side in ("home", "away") for line in range(-20, 21)]
    totals = [("total", line, side) for side in ("over", "under") for line in range(2, 31)]
    return plain + handicaps + totals


def sign(n):
    return (n > 0) - (n < 0)


def legs(line):
    return (line, line) if line % 2 == 0 else (line - 1, line + 1)


def leg_result(market, side, leg, home, away):
    """1 where the leg wins, 0 where it is pushed, -1 where it loses."""
    if market == "1x2":
        return 1 if side == {1: "home", 0: "draw", -1: "away"}[sign(home - away)] else -1
    if market == "ah":
        result = sign(4 * (home - away) + leg)
        return result if side == "home" else -result
    result = sign(4 * (home + away) - leg)
    return result if side == "over" else -result


def leg_at(selection, leg, rule, finished, home, away):
    """The same at the end of a match, or at its abandonment under a rule."""
    market, _, side = selection
    if finished or rule == "score":
        return leg_result(market, side, leg, home, away)
    if rule == "decided" and market == "total" and 4 * (home + away) > leg:
        return leg_result(market, side, leg, home, away)
    return 0


def gain(selection, rule, odds, finished, home, away):
    """In 1/2000 of the stake."""
    amount = {1: odds - 1000, 0: 0, -1: -1000}
    return sum(amount[leg_at(selection, leg, rule, finished, home, away)] for leg in legs(selection[1]))


def fair_odds(selection):
    """In thousandths, by the chances of the two goals; none where the bet cannot lose or cannot win."""
    won = lost = 0.0
    for home in range(16):
        for away in range(16):
            chance = math.exp(-HOME_GOALS - AWAY_GOALS) * HOME_GOALS**home * AWAY_GOALS**away
            chance /= math.factorial(home) * math.factorial(away)
            for leg in legs(selection[1]):
                result = leg_result(selection[0], selection[2], leg, home, away)
                won += chance * (result > 0)
                lost += chance * (result < 0)
    return 1000 + 1000 * lost / won if won > 0 and lost > 0 else None


def sheet(count, seed, grain):
    """Feeds with their rules, and in each its offers: a selection, its odds and its limit."""
    chance = random.Random(seed)
    feeds = [(RULES[k % 3], []) for k in range(min(8, (count + 31) // 32 + 1))]
    for k in range(count):
        rule, offers = feeds[k % len(feeds)]
        while True:
            selection = chance.choice(selections())
            fair = fair_odds(selection)
            if fair is None or selection in [offer[0] for offer in offers]:
                continue
            odds = grain * round(fair * 0.96 * chance.uniform(0.98, 1.02) / grain)
            if 1001 <= odds <= 100_000:
                offers.append((selection, odds, 1000 * chance.randint(1, 100)))
                break
    for _, offers in feeds:
        offers.sort(key=lambda offer: selections().index(offer[0]))
    return feeds


def program(feeds):
    """The rows of the homogeneous program, and its right sides."""
    offers = [(selection, rule, odds) for rule, quoted in feeds for selection, odds, _ in quoted]
    rows = {}
    for finished in (True, False):
        for home, away in scores():
            gains = tuple(gain(s, rule, odds, finished, home, away) for s, rule, odds in offers)
            rows.setdefault((finished, gains))
    columns = [[gains[i] for _, gains in rows] for i in range(len(offers))]
    leading = [
        i
        for i, mine in enumerate(columns)
        if not any(
            k != i and all(a >= b for a, b in zip(other, mine)) and (other != mine or k < i)
            for k, other in enumerate(columns)
        )
    ]
    divisors = {i: math.gcd(*columns[i]) for i in leading}
    table = [[int(finished)] + [-gains[i] // divisors[i] for i in leading] for finished, gains in rows]
    table.append([1] + [0] * len(leading))
    return table, [0] * len(rows) + [1]


def line_text(line):
    return f"{'-' if line < 0 else ''}{abs(line) // 4}.{abs(line) % 4 * 25:02}"


def selection_text(selection):
    market, line, side = selection
    return f"1x2 {side}" if market == "1x2" else f"{market} {line_text(line)} {side}"


def main():
    count, seed, grain = map(int, sys.argv[1:4])
    folder = pathlib.Path(sys.argv[4])
    feeds = sheet(count, seed, grain)
    for k, (rule, offers) in enumerate(feeds):
        lines = [f"feed 1 book{k} {rule}"]
        lines += [f"quote m {selection_text(s)} {odds // 1000}.{odds % 1000:03} {limit}" for s, odds, limit in offers]
        (folder / f"f{k}.feed").write_text("\n".join(lines) + "\n")
    table, right = program(feeds)
    numbers = [len(table[0]), len(table)] + [x for row in table for x in row] + right
    (folder / "program.txt").write_text(" ".join(map(str, numbers)) + "\n")


if __name__ == "__main__":
    main()
