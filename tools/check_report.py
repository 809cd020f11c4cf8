#!/usr/bin/env python3
"""A second checker of arbscan's reports.

    check_report.py REPORT

writes one line for each match, `match NAME yes`, `match NAME no ..` with what is
wrong, or `match NAME unsettled` if the finding is no verdict, and then `end`. It
ends with status 0, with 1 if a line says `no`, and with 2 if the file cannot be
read or is no report. docs/FORMATS.md, "Verify text", has the words and the tests.

It was written from docs/FORMATS.md and docs/SETTLEMENT.md alone, shares nothing
with arbscan, and is not proved. It is meant to be read in one sitting: part 1
settles bets, part 2 judges a finding, part 3 reads the text. All numbers are
whole. Nothing is rounded but a payment, once, as the rules say.

Where arbscan looks at 98 outcomes that stand for all, this program settles each bet
at all scores up to 12 goals a side. So it also sees whether the 98 suffice. It looks
at these 98 first, in their order. So both name the same outcome if these suffice.
"""

import argparse
import itertools
import re
import sys
from collections import namedtuple

# Part 1. How bets are settled (docs/SETTLEMENT.md)
#
# Odds are in thousandths, lines in quarters of a goal (0 for 1x2), and gains in 1/2000
# of the stake. An outcome is ("full" or "abandoned", home goals, away goals).

Offer = namedtuple("Offer", "feed market line side odds limit rule")


def sign(number):
    return (number > 0) - (number < 0)


def half_lines(line):
    """The lines of a bet's two halves: a quarter line has two neighbouring ones."""
    return (line - 1, line + 1) if line % 2 == 1 else (line, line)


def result(offer, line, home, away):
    """How one half of a bet goes at a score: 1 is won, 0 pushed, -1 lost."""
    lead, goals = home - away, home + away
    if offer.market == "1x2":
        return 1 if sign(lead) == {"home": 1, "draw": 0, "away": -1}[offer.side] else -1
    if offer.market == "ah":
        return sign(4 * lead + line) * (1 if offer.side == "home" else -1)
    return sign(4 * goals - line) * (1 if offer.side == "over" else -1)


def stands_if_abandoned(offer, line, home, away):
    """Whether one half of a bet is settled at an abandonment, and not given back."""
    if offer.rule == "decided":
        # Only a total that the goals exceed already is settled alike by every later
        # score. Any lead can still be turned.
        return offer.market == "total" and 4 * (home + away) > line
    return offer.rule == "score"


def gain(offer, outcome):
    """What a bet gains at an outcome, in 1/2000 of its stake."""
    kind, home, away = outcome
    total = 0
    for line in half_lines(offer.line):
        if kind == "full" or stands_if_abandoned(offer, line, home, away):
            total += {1: offer.odds - 1000, 0: 0, -1: -1000}[result(offer, line, home, away)]
    return total


def place_of_score(score):
    """The order in which scores are looked at: first those that stand for others."""
    home, away = score
    goals, lead = home + away, home - away
    if goals <= 7:
        return 0, goals, home
    return (1, lead, 0) if goals <= 9 and -6 <= lead <= 6 else (2, goals, home)


SCORES = sorted(itertools.product(range(12 + 1), repeat=2), key=place_of_score)
OUTCOMES = [(kind, *score) for kind in ("full", "abandoned") for score in SCORES]

# Part 2. Whether a finding is right (docs/FORMATS.md, "Verify text")
#
# A finding has a kind, stakes as parts of a divisor (1 for an `arb`), and a measure: a list
# of pairs of an outcome and its weight.

Finding = namedtuple("Finding", "kind divisor parts measure", defaults=(1, [], []))
MOST_PART, MOST_SCORE = 2**60 - 1, 2**40


def answer(offers, finding):
    """What is said of a finding: the first test that fails tells it."""
    if finding.kind not in ("arb", "coherent", "thin"):
        return "unsettled"
    faults = itertools.chain(faults_of_form(offers, finding), faults_of_sums(offers, finding))
    return next(("no " + fault for fault in faults), "yes")


def faults_of_form(offers, finding):
    """Tests 1 and 2, in their order: are the stakes in form, and is the measure?"""
    if finding.kind != "coherent":
        if len(finding.parts) != len(offers):
            yield f"shape stakes {min(len(finding.parts), len(offers))}"
        if not 1 <= finding.divisor <= MOST_PART:
            yield f"shape stakes {len(offers)}"
        for place, part in enumerate(finding.parts):
            if part > MOST_PART:
                yield f"shape stakes {place}"
    if finding.kind != "arb":
        seen = set()
        for place, (outcome, weight) in enumerate(finding.measure):
            in_range = 1 <= weight <= MOST_PART and max(outcome[1:]) <= MOST_SCORE
            if not in_range or outcome in seen:
                yield f"shape measure {place}"
            seen.add(outcome)
        if not any(kind == "full" for kind, _, _ in seen):
            yield f"shape measure {len(seen)}"


def faults_of_sums(offers, finding):
    """Tests 3 to 6, in their order, of a finding that is in form."""
    for place, part in enumerate(finding.parts):
        if part > offers[place].limit * finding.divisor:
            yield f"offer {place} {part}"
    bets = [(offer, part) for offer, part in zip(offers, finding.parts) if part > 0]
    for outcome in OUTCOMES if finding.kind != "coherent" else []:
        gains = [(part, gain(offer, outcome)) for offer, part in bets]
        if finding.kind == "arb":
            # What a bet pays is rounded down once, to whole minor units.
            won = sum(stake * (2000 + each) // 2000 - stake for stake, each in gains)
        else:
            won = sum(part * each for part, each in gains)
        if won < (1 if outcome[0] == "full" else 0):
            yield "at {} {} {} {}".format(*outcome, won)
    means = [sum(weight * gain(offer, outcome) for outcome, weight in finding.measure)
             for offer in offers]
    for place, mean in enumerate(means):
        if finding.kind == "coherent" and mean > 0:
            yield f"offer {place} {mean}"
    reach = sum(max(0, mean) * offer.limit for offer, mean in zip(offers, means))
    need = 2000 * sum(weight for (kind, _, _), weight in finding.measure if kind == "full")
    if finding.kind == "thin" and reach >= need:
        yield f"bound {reach} {need}"


# Part 3. How a report is read (docs/FORMATS.md, "Report" and "Finding text")

MOST_BYTES, MOST_LINE_BYTES, MOST_MATCHES = 67_108_864, 65_536, 2_048
NUMBER = "(0|[1-9][0-9]{0,19})"
NAME = "([A-Za-z0-9_.-]{1,32})"
FEED = f"feed {NUMBER} {NAME} (void|score|decided) lines {NUMBER} refused {NUMBER} (end|cut|fault)"
CAUSE = ("TooLong|NotAscii|Missing|UnknownWord|BadName|BadLine|LineRange|BadOdds|OddsRange|"
         "BadLimit|LimitRange|Extra|TooManyMatches|TooManyOffers|NotQuoted")
LINE = "(-?[0-9]\\.(?:00|25|50|75))"
OFFER = (f"offer {NUMBER} (1x2|ah {LINE}|total {LINE}) (home|draw|away|over|under) "
         f"([1-9][0-9]{{0,3}}\\.[0-9]{{3}}) {NUMBER}")
LINES = {"1x2": [0], "ah": range(-20, 21), "total": range(2, 31)}
SIDES = ["1x2 home", "1x2 draw", "1x2 away", "ah home", "ah away", "total over", "total under"]


class Wrong(Exception):
    pass


def require(condition, why):
    if not condition:
        raise Wrong(why)


class Text:
    """The lines of a report. `number` is that of the line that was taken last."""

    def __init__(self, data):
        self.lines, self.number = data[:MOST_BYTES].decode("latin-1").split("\n"), 0

    def take(self, pattern):
        self.number += 1
        require(self.number < len(self.lines), "a line, with its LF, is missing")
        line = self.lines[self.number - 1]
        found = re.fullmatch(pattern, line)
        require(found and len(line) <= MOST_LINE_BYTES, f"the line is not like {pattern}")
        return found.groups()

    def next_is(self, word):
        return self.lines[self.number].startswith(word)


def read_report(text):
    """The matches of a report: of each its name, offers and finding."""
    text.take("arbscan report 1")
    require(1 <= int(text.take(f"pivots {NUMBER}")[0]) <= 65_536, "pivots: 1 to 65536")
    books, rules, matches = [], [], []
    while not books or text.next_is("feed "):
        read_feed(text, books, rules)
    while text.next_is("match "):
        name, count = text.take(f"match {NAME} offers {NUMBER}")
        require(not matches or matches[-1][0] < name, "the names of matches rise")
        require(int(count) <= 256 and len(matches) < MOST_MATCHES, "too many")
        offers = read_offers(text, int(count), rules)
        matches.append((name, offers, read_finding(*text.take("finding (.*)"))))
    text.take("end")
    text.number += 1
    require(text.lines[text.number - 1:] == [""], "something follows `end`")
    return matches


def read_feed(text, books, rules):
    feed, book, rule, lines, refused, stop = text.take(FEED)
    lines, refused = int(lines), int(refused)
    require(int(feed) == len(books) < 8 and book not in books, "feeds 0 to 7, each of a new book")
    require((0 if stop == "fault" else 1) <= lines <= 16_384, "lines: 1 to 16384")
    require(refused == 0 or refused < lines, "more lines are refused than there are")
    books.append(book)
    rules.append(rule)
    before = 1
    for _ in range(refused):
        same, line, column = text.take(f"refused {NUMBER} {NUMBER} {NUMBER} (?:{CAUSE})")
        require(same == feed and 1 <= int(column) <= 201, "of its feed, and at a column to 201")
        require(before < int(line) <= lines, "refused lines rise")
        before = int(line)


def read_offers(text, count, rules):
    offers, before = [], ()
    for _ in range(count):
        feed, selection, handicap, total, side, odds, limit = text.take(OFFER)
        market, written = selection.split(" ")[0], handicap or total or "0.00"
        line = int(written.replace(".", "")) // 25
        require(f"{market} {side}" in SIDES and line in LINES[market], "no such bet")
        require(written != "-0.00" and int(feed) < len(rules), "no such line or feed")
        offer = Offer(int(feed), market, line, side, int(odds.replace(".", "")), int(limit),
                      rules[int(feed)])
        require(1_001 <= offer.odds <= 1_000_000 and 1 <= offer.limit <= 100_000_000, "ranges")
        here = offer.feed, SIDES.index(f"{market} {side}"), line
        require(before < here, "offers rise by feed and selection")
        before = here
        offers.append(offer)
    return offers


def read_finding(finding):
    words = finding.split(" ")[::-1]  # the last word of the list is the next one

    def word(*allowed):
        require(words and words[-1] in allowed, "the finding needs another word")
        return words.pop()

    def number(end):
        require(words and re.fullmatch(NUMBER, words[-1]), "the finding needs a number")
        require(int(words[-1]) < end, f"a number of the finding is not below {end}")
        return int(words.pop())

    def measure():
        return [((word("full", "abandoned"), number(2**64), number(2**64)), number(2**64))
                for _ in range(number(1_025))]

    kind = word("arb", "coherent", "thin", "narrow", "wide", "out-of-pivots")
    if kind == "arb":
        read = Finding(kind, 1, [number(2**32) for _ in range(number(257))])
    elif kind == "coherent":
        read = Finding(kind, measure=measure())
    elif kind in ("thin", "narrow"):
        read = Finding(kind, number(2**64), [number(2**64) for _ in range(number(257))], measure())
    else:
        read = Finding(kind)
        require(number(4) >= 1, "stages: 1 to 3")
        number(2**32)  # the pivots
        if kind == "wide":
            for _ in range({"entry": 2, "weight": 1, "stake": 1}[word("entry", "weight", "stake")]):
                number(2**32)
    require(not words, "something follows the finding")
    return read


def main():
    parser = argparse.ArgumentParser(description=__doc__,
                                     formatter_class=argparse.RawDescriptionHelpFormatter)
    parser.add_argument("report", metavar="REPORT", help="a file with what arbscan wrote")
    try:
        with open(parser.parse_args().report, "rb") as file:
            text = Text(file.read())
        matches = read_report(text)
    except (OSError, Wrong) as fault:
        read = isinstance(fault, Wrong)
        print("error: the report", f"is wrong at line {text.number}" if read else "cannot be opened")
        print(f"check_report.py: {fault}", file=sys.stderr)
        return 2
    lines = [f"match {name} {answer(offers, finding)}" for name, offers, finding in matches]
    print(*lines, "end", sep="\n")
    return 1 if any(" no " in line for line in lines) else 0


if __name__ == "__main__":
    sys.exit(main())
