#!/usr/bin/env python3
"""Makes sheets of offers on one match, each with a linear program that exact solvers read, for `solvers.sh`.

    bench/solvers.py SHEETS FOLDER

Writes FOLDER/K for each K below SHEETS: the feeds `f0.feed` and so on, and `program.lp` in the LP format. Sheet K depends on K
alone: its markets, its feeds' rules and how its odds are made take turns, and the rest is drawn. It has up to 64 offers.

The program has a column for each offer and a row for each way in which the offers settle. It asks for a gain of the level at
each final score, and for no loss at each abandonment; the level is at most 1. So its optimum is 1 if some stakes gain at each
final score, and else 0. It leaves no offer out and divides no gain, so each coefficient is a whole number below 2^53, which
a reader keeps exactly.

The bets are settled as docs/SETTLEMENT.md says, at all scores of up to 12 goals a side, and without its stand-ins. Whether half
a bet is decided is found from all later scores of up to 24 goals a side. Nothing is shared with the crates.
"""

import functools
import pathlib
import random
import sys

from sheets import RULES, fair_odds, leg_result, legs, selection_text, selections

MOST_OFFERS, MOST_OF_A_FEED, MOST_FEEDS = 64, 32, 8
GOALS, LATER_GOALS = 12, 24
MARKETS = [("1x2",), ("ah",), ("total",), ("1x2", "ah", "total")]
BOOKS = [["void"], ["score"], ["decided"], RULES]
# How odds are made: by the margin of the books and the noise on it, or without any margin.
ODDS = [(0.96, 0.02), (0.98, 0.02), (1.0, 0.005), (1.02, 0.03), "exact"]
# Results, the two sides of a handicap of half a goal, and totals, at odds without any margin.
EXACT_RESULTS = [
    ((3000, 3000, 3000), (3000, 1500)),
    ((2000, 4000, 4000), (2000, 2000)),
    ((5000, 2500, 2500), (5000, 1250)),
    ((2000, 3000, 6000), (2000, 2000)),
]
EXACT_TOTALS = [(2000, 2000), (1500, 3000), (1250, 5000), (1800, 2250), (6000, 1200)]

OUTCOMES = [(finished, h, a) for finished in (True, False) for h in range(GOALS + 1) for a in range(GOALS + 1)]
fair = functools.cache(fair_odds)


@functools.cache
def from_here(market, side, leg, home, away):
    """How half a bet can be settled from this score on."""
    results = {leg_result(market, side, leg, home, away)}
    if home < LATER_GOALS:
        results |= from_here(market, side, leg, home + 1, away)
    if away < LATER_GOALS:
        results |= from_here(market, side, leg, home, away + 1)
    return results


def half(market, side, leg, rule, finished, home, away):
    """1 if half a bet wins, 0 if it is pushed or given back, -1 if it loses."""
    result = leg_result(market, side, leg, home, away)
    if finished or rule == "score":
        return result
    return result if rule == "decided" and len(from_here(market, side, leg, home, away)) == 1 else 0


@functools.cache
def halves(selection, rule):
    """The two halves of a bet at each outcome."""
    market, line, side = selection
    return [[half(market, side, leg, rule, *outcome) for leg in legs(line)] for outcome in OUTCOMES]


def gains(selection, rule, odds):
    """In 1/2000 of the stake, at each outcome."""
    amount = {1: odds - 1000, 0: 0, -1: -1000}
    return [amount[first] + amount[second] for first, second in halves(selection, rule)]


def near(chance, market, margin, noise):
    """A selection of the market with odds near the fair ones, or none."""
    selection = chance.choice([s for s in selections() if s[0] == market])
    odds = fair(selection)
    if odds is None:
        return None
    grain = chance.choice([1, 10, 50])
    odds = grain * round(odds * margin * chance.uniform(1 - noise, 1 + noise) / grain)
    return (selection, odds) if 1001 <= odds <= 100_000 else None


def exact(chance):
    """Selections with odds that leave no margin, up to a thousandth on some."""
    results, handicaps = chance.choice(EXACT_RESULTS)
    totals, line = chance.choice(EXACT_TOTALS), 2 * chance.randrange(1, 15, 2)
    bets = [(("1x2", 0, side), odds) for side, odds in zip(("home", "draw", "away"), results)]
    bets += [(("ah", -2, side), odds) for side, odds in zip(("home", "away"), handicaps)]
    bets += [(("total", line, side), odds) for side, odds in zip(("over", "under"), totals)]
    return [(selection, odds + chance.choice([0, 0, 0, 0, -1, 1])) for selection, odds in bets]


def sheet(number):
    """Feeds with their rules, and in each its offers: a selection, its odds and its limit."""
    chance = random.Random(number)
    markets = MARKETS[number % 4]
    rules = BOOKS[number // 4 % 4]
    how = ODDS[number // 16 % 5]
    feeds = [(rules[k % len(rules)], {}) for k in range(chance.randint(1, MOST_FEEDS))]
    count = chance.randint(2, MOST_OFFERS)
    drawn = exact(chance) if how == "exact" else [near(chance, chance.choice(markets), *how) for _ in range(count)]
    for selection, odds in filter(None, drawn):
        _, offers = chance.choice(feeds)
        if len(offers) < MOST_OF_A_FEED:
            offers[selection] = odds, chance.randint(1, 10 ** chance.randint(1, 6))
    return [(rule, [(s, *offers[s]) for s in selections() if s in offers]) for rule, offers in feeds]


def row(coefs, level):
    """The row of an outcome: the gains, less the level at a final score, sum to at least 0."""
    terms = [f"{'-' if c < 0 else '+'} {abs(c)} x{i}" for i, c in enumerate(coefs) if c] + ["- v"] * level
    return "\n   ".join(" ".join(terms[k : k + 8]) for k in range(0, len(terms), 8)) + " >= 0"


def program(feeds):
    """The text of the program, in the LP format."""
    columns = [gains(selection, rule, odds) for rule, offers in feeds for selection, odds, _ in offers]
    kinds = dict.fromkeys((outcome[0], coefs) for outcome, coefs in zip(OUTCOMES, zip(*columns)))
    rows = [row(coefs, finished) for finished, coefs in kinds if finished or any(coefs)]
    lines = ["Maximize", " level: v", "Subject To"]
    lines += [f" c{k}: {text}" for k, text in enumerate(rows)]
    return "\n".join(lines + ["Bounds", " v <= 1", "End"]) + "\n"


def main():
    count, folder = int(sys.argv[1]), pathlib.Path(sys.argv[2])
    for number in range(count):
        here = folder / f"{number:04}"
        here.mkdir(parents=True)
        feeds = sheet(number)
        for k, (rule, offers) in enumerate(feeds):
            lines = [f"feed 1 book{k} {rule}"]
            lines += [f"quote m {selection_text(s)} {odds // 1000}.{odds % 1000:03} {limit}" for s, odds, limit in offers]
            (here / f"f{k}.feed").write_text("\n".join(lines) + "\n")
        (here / "program.lp").write_text(program(feeds))


main()
