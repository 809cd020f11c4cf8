#!/usr/bin/env python3
"""Makes a page of a report of arbscan, for people who would rather look than read.

    report_page.py REPORT [--names TABLE] -o PAGE.html

The page is one file. It opens from disk, and nothing of it comes from elsewhere. It has the
findings with their stakes, gains and probabilities, and the refused lines of the feeds.
TABLE is a CSV file with the columns match, home, away and perhaps date, such as names.csv
of feeds_from_csv.py: the page then shows the teams.

The page shows what the report says and checks none of it: check_report.py does. This program
is not proved. It settles bets by docs/SETTLEMENT.md, to show what they win. Every number on
the page is exact, or says how it was rounded.
"""

import argparse
import csv
import os
import re
import sys
from collections import Counter, namedtuple
from fractions import Fraction
from html import escape

KINDS = ("arb", "thin", "narrow", "wide", "out-of-pivots", "coherent")
TOLD = {
    "arb": "stakes that win at every final score and lose at no abandonment",
    "thin": "fractions of a minor unit would gain, whole stakes within the limits do not",
    "narrow": "open: the stakes found fail once they are rounded down",
    "wide": "open: a number left its range",
    "out-of-pivots": "open: a run used up its budget",
    "coherent": "no stakes can win at every final score and lose at no abandonment",
}
RULES = {"void": "gives all stakes back", "score": "settles on the score at abandonment",
         "decided": "settles what no later goal can change, and gives back the rest"}
STOPS = {"end": "read to its end", "cut": "longer than the limits of size", "fault": "a read failed"}
STAGES = {1: "without limits", 2: "within the limits with slack", 3: "within the limits"}
CAUSES = {
    "TooLong": "more than 200 bytes", "NotAscii": "a byte that is no ASCII text",
    "Missing": "a field is missing", "UnknownWord": "a word that is not allowed here",
    "BadName": "no name", "BadLine": "no handicap or total line", "LineRange": "line out of range",
    "BadOdds": "no odds", "OddsRange": "odds out of range", "BadLimit": "no limit",
    "LimitRange": "limit out of range", "Extra": "a field too many",
    "TooManyMatches": "more than 256 matches in the feed",
    "TooManyOffers": "more than 32 offers of the feed on the match",
    "NotQuoted": "a withdrawal of what does not stand",
}

Feed = namedtuple("Feed", "book rule lines stop refused")
# `line` is in quarters of a goal, `odds` in thousandths, `limit` in minor units.
Offer = namedtuple("Offer", "feed market line side odds limit")
Finding = namedtuple("Finding", "kind divisor parts measure words")
Match = namedtuple("Match", "name offers finding")

# ---------------------------------------------------------------------------
# Reading


class Wrong(Exception):
    """The text is no report that can be shown."""


def read_report(text):
    """The feeds and the matches of a report, and its budget of pivots."""
    lines, place = [*text.split("\n"), ""], 0

    def take(pattern):
        nonlocal place
        found = re.fullmatch(pattern, lines[place]) if place < len(lines) else None
        place += 1
        if not found:
            raise Wrong(f"line {place} is not as in docs/FORMATS.md")
        return found.groups()

    take("arbscan report 1")
    (pivots,) = take("pivots ([0-9]+)")
    feeds, matches = [], []
    while lines[place].startswith("feed "):
        book, rule, count, refused, stop = take(
            "feed [0-9]+ (\\S+) (void|score|decided) lines ([0-9]+) refused ([0-9]+) (\\w+)")
        feeds.append(Feed(book, rule, int(count), stop, [
            take("refused [0-9]+ ([0-9]+) ([0-9]+) (\\w+)") for _ in range(int(refused))]))
    while lines[place].startswith("match "):
        name, count = take("match (.+) offers ([0-9]{1,4})")
        offers = [read_offer(*take("offer ([0-7]) (1x2|ah|total)(?: (-?[0-9]\\.[0-9]{2}))? (home|draw"
                                   "|away|over|under) ([0-9]+)\\.([0-9]{3}) ([0-9]{1,9})"), feeds)
                  for _ in range(int(count))]
        try:
            finding = read_finding(take("finding (.+)")[0].split(" "))
        except (ValueError, IndexError):
            raise Wrong(f"line {place} has no finding") from None
        matches.append(Match(name, offers, finding))
    take("end")
    return int(pivots), feeds, matches


def read_offer(feed, market, line, side, whole, decimals, limit, feeds):
    sides = {"1x2": "home draw away", "ah": "home away", "total": "over under"}[market].split(" ")
    if int(feed) >= len(feeds) or (line is None) != (market == "1x2") or side not in sides:
        raise Wrong(f"an offer of feed {feed} is not as in docs/FORMATS.md")
    quarters = 0 if line is None else int(line.replace(".", "")) // 25
    return Offer(int(feed), market, quarters, side, int(whole + decimals), int(limit))


def read_finding(words):
    """A finding; of those with no stakes or measure also their further words."""
    kind, rest = words[0], iter(words[1:])

    def number():
        return int(next(rest, ""))

    def parts():
        return [number() for _ in range(number())]

    def measure():
        return [((next(rest, ""), number(), number()), number()) for _ in range(number())]

    if kind not in KINDS:
        raise ValueError
    if kind == "arb":
        return Finding(kind, 1, parts(), [], [])
    if kind == "coherent":
        return Finding(kind, 1, [], measure(), [])
    if kind in ("thin", "narrow"):
        return Finding(kind, max(1, number()), parts(), measure(), [])
    if not (words[1].isdecimal() and words[2].isdecimal()):
        raise ValueError
    return Finding(kind, 1, [], [], words[1:])


def read_names(path):
    """The teams and dates of matches, by the names that the report has for them."""
    try:
        with open(path, encoding="utf-8-sig", newline="") as file:
            table = csv.DictReader(file)
            if not {"match", "home", "away"} <= set(table.fieldnames or ()):
                raise Wrong(f"{path} has no columns match, home and away")
            return {row["match"]: row for row in table}
    except (UnicodeDecodeError, csv.Error) as fault:
        raise Wrong(f"{path} is no table of names: {fault}") from None


# ---------------------------------------------------------------------------
# Settling, by docs/SETTLEMENT.md


def half(offer, line, home, away):
    """1 if a half of the bet with this line wins, 0 if it is pushed, -1 if it loses."""
    if offer.market == "1x2":
        return 1 if (home > away) - (home < away) == {"home": 1, "draw": 0, "away": -1}[
            offer.side] else -1
    excess = 4 * (home - away) + line if offer.market == "ah" else 4 * (home + away) - line
    way = (excess > 0) - (excess < 0)
    return way if offer.side in ("home", "over") else -way


def gain(offer, rule, outcome):
    """What a bet gains, in 1/2000 of its stake."""
    kind, home, away = outcome
    total = 0
    for line in (offer.line - offer.line % 2, offer.line + offer.line % 2):
        decided = offer.market == "total" and 4 * (home + away) > line
        if kind == "full" or rule == "score" or (rule == "decided" and decided):
            total += (-1000, 0, offer.odds - 1000)[1 + half(offer, line, home, away)]
    return total


def nets(match, feeds, kind):
    """What whole stakes win at each score up to 12 goals a side."""
    bets = [(stake, offer, feeds[offer.feed].rule)
            for stake, offer in zip(match.finding.parts, match.offers) if stake]
    return {(home, away): sum(stake * (2000 + gain(offer, rule, (kind, home, away))) // 2000 - stake
                              for stake, offer, rule in bets)
            for home in range(13) for away in range(13)}


def mean(offer, rule, measure):
    """The average gain of one unit of stake under the weights."""
    total = sum(weight * gain(offer, rule, outcome) for outcome, weight in measure)
    return Fraction(total, 2000 * sum(weight for _, weight in measure))


# ---------------------------------------------------------------------------
# Numbers and names, as people write them


def decimal(value, places):
    """A number with so many decimals; it begins with ≈ if it had to be rounded."""
    scaled = abs(Fraction(value)) * 10**places
    nearest = (2 * scaled.numerator + scaled.denominator) // (2 * scaled.denominator)
    digits = f"{nearest:0{places + 1}}"
    whole, decimals = digits[:len(digits) - places], digits[len(digits) - places:]
    return (("" if nearest == scaled else "≈\u202f") + ("−" if value < 0 and nearest else "")
            + f"{int(whole):,}" + ("." + decimals if places else ""))


def money(minor):
    return decimal(Fraction(minor, 100), 2)


def percent(value, places=3):
    return decimal(100 * Fraction(value), places) + "\u202f%"


def signed_line(quarters):
    return ("+" if quarters > 0 else "−" if quarters < 0 else "") + decimal(
        Fraction(abs(quarters), 4), 2)


def bet(offer):
    """A bet in words. An away handicap is told from the away side, as books do."""
    if offer.market == "1x2":
        return {"home": "home win", "draw": "draw", "away": "away win"}[offer.side]
    if offer.market == "ah":
        return f"{offer.side} {signed_line(offer.line if offer.side == 'home' else -offer.line)}"
    return f"{offer.side} {decimal(Fraction(offer.line, 4), 2)}"


def odds(offer):
    return decimal(Fraction(offer.odds, 1000), 3)


# ---------------------------------------------------------------------------
# Pieces of the page


def table(heads, rows, numbers=()):
    """A table. `numbers` are the columns that are set to the right."""
    def line(tag, cells):
        return "<tr>" + "".join(
            f"<{tag}{' class=r' if place in numbers else ''}>{escape(str(cell))}"
            for place, cell in enumerate(cells))

    return ("<div class=wide><table><thead>" + line("th", heads) + "<tbody>"
            + "".join(line("td", row) for row in rows) + "</table></div>")


def level(value, most):
    """How strongly a cell is coloured, 1 to 4."""
    return min(4, 1 + int(4 * abs(value) / most)) if value else 0


def grid(caption, value, text, sort, most):
    """The scores from 0-0 to 5-5, told by a text, and coloured by a value up to `most`."""
    scores = [[(home, away) for away in range(6)] for home in range(6)]
    lines = ["<tr><th>" + "".join(f"<th>{away}" for away in range(6))]
    for home, row in enumerate(scores):
        cells = ((value(score), text(score)) for score in row)
        lines.append(f"<tr><th>{home}" + "".join(
            f"<td class={'nz' if not each else (sort if each > 0 else 'n') + str(level(each, most))}>"
            f"{told}" for each, told in cells))
    return (f"<figure><figcaption>{caption}</figcaption><div class=wide><table class=grid>"
            + "".join(lines) + "</table></div><p class=axes>down: home goals, across: away goals"
            "</figure>")


def net_grids(match, feeds):
    """What the stakes of an `arb` win, at final scores and at abandonments."""
    pieces = []
    for kind, caption, alike in (("full", "Net at the final score", "Net at any final score"),
                                 ("abandoned", "Net if abandoned at", "Net if abandoned at any score")):
        won = nets(match, feeds, kind)
        if len(set(won.values())) == 1:
            pieces.append(f"<p>{alike}: {money(won[0, 0])}.")
        else:
            pieces.append(grid(caption, won.get, lambda score, won=won: money(won[score]), "p",
                               max(map(abs, won.values()))))
    return "<div class=grids>" + "".join(pieces) + "</div>"


def measure_grids(measure):
    """The weights of a measure as probabilities."""
    total = sum(weight for _, weight in measure)
    weights = {}
    for outcome, weight in measure:
        weights[outcome] = weights.get(outcome, 0) + weight
    pieces, beyond = [], []
    for kind, caption in (("full", "a final score"), ("abandoned", "an abandonment")):
        shares = {(home, away): Fraction(weight, total)
                  for (sort, home, away), weight in weights.items() if sort == kind}
        beyond += [f"{caption} {home}-{away}: {percent(share)}"
                   for (home, away), share in shares.items() if max(home, away) > 5]
        if not shares:
            pieces.append(f"<p>The probability of {caption} is 0.")
            continue
        pieces.append(grid(
            f"Probability of {caption}, in percent, rounded to a tenth",
            lambda score, shares=shares: shares.get(score, 0),
            lambda score, shares=shares: decimal(100 * shares[score], 1).replace("≈\u202f", "")
            if score in shares else "·", "w", Fraction(max(weights.values()), total)))
    more = "<p>Beyond five goals: " + "; ".join(beyond) + "." if beyond else ""
    return "<div class=grids>" + "".join(pieces) + "</div>" + more


def all_offers(match, feeds):
    """Every offer, with its stake and its mean if the finding has them."""
    finding = match.finding
    heads, numbers = ["Book", "Bet", "Odds", "Limit"], [2, 3]
    stakes = len(finding.parts) == len(match.offers) > 0
    means = sum(weight for _, weight in finding.measure) > 0
    heads += ["Stake"] * stakes + ["Mean gain"] * means
    rows = []
    for place, offer in enumerate(match.offers):
        row = [feeds[offer.feed].book, bet(offer), odds(offer), money(offer.limit)]
        if stakes:
            row.append(decimal(Fraction(finding.parts[place], 100 * finding.divisor),
                               2 if finding.kind == "arb" else 4) if finding.parts[place] else "")
        if means:
            row.append(percent(mean(offer, feeds[offer.feed].rule, finding.measure), 2))
        rows.append(row)
    return table(heads, rows, [*numbers, *range(4, len(heads))]) if rows else "<p>No offer stands."


# ---------------------------------------------------------------------------
# One match


def sure_gain(match, feeds):
    """The least that the stakes of an `arb` win at a final score, or None."""
    if match.finding.kind != "arb" or len(match.finding.parts) != len(match.offers):
        return None
    return min(nets(match, feeds, "full").values())


def told_arb(match, feeds):
    if len(match.finding.parts) != len(match.offers):
        return "<p class=bad>The finding does not have one stake for each offer."
    bets = [(offer, stake) for offer, stake in zip(match.offers, match.finding.parts) if stake]
    total = sum(stake for _, stake in bets)
    least, most = min(nets(match, feeds, "full").values()), max(nets(match, feeds, "full").values())
    broken = min(nets(match, feeds, "abandoned").values())
    rows = [[feeds[offer.feed].book, bet(offer), odds(offer), money(stake),
             money(stake * offer.odds // 1000)] for offer, stake in bets]
    rows.append(["Total", "", "", money(total), ""])
    bad = least < 1 or broken < 0 or any(stake > offer.limit for offer, stake in bets)
    return (table(["Book", "Bet", "Odds", "Stake", "Pays if won"], rows, (2, 3, 4))
            + ("<p class=bad>These stakes are no arbitrage. Run check_report.py on the report."
               if bad else "")
            + f"<p>Sure gain: <b>{money(least)}</b> on {money(total)}"
            + (f", which is {percent(Fraction(least, total))}" if total else "")
            + f". At final scores the net is from {money(least)} to {money(most)}, and if the match "
            f"is abandoned at least {money(broken)}."
            + net_grids(match, feeds))


def told_measure(match, feeds):
    finding = match.finding
    total = sum(weight for _, weight in finding.measure)
    if total == 0:
        return "<p class=bad>The finding has no weight."
    if finding.kind == "coherent":
        text = ("<p>No stakes, whatever the limits, win at every final score and lose at no "
                "abandonment: under these probabilities no bet gains on average.")
    else:
        text = told_parts(match, feeds, total)
    return text + measure_grids(finding.measure)


def told_parts(match, feeds, total):
    """What a `thin` or a `narrow` says of its stakes and its weights."""
    finding = match.finding
    if finding.kind == "narrow":
        return ("<p>These stakes as fractions win a whole minor unit at every final score and lose "
                "at no abandonment, but they fail once each is rounded down to whole minor units. "
                "Whether other whole stakes succeed is open. Under these probabilities no stakes "
                "within the limits win a minor unit and what rounding may cost.")
    reach = sum(max(0, mean(offer, feeds[offer.feed].rule, finding.measure)) * offer.limit
                for offer in match.offers)
    need = Fraction(sum(weight for (kind, *_), weight in finding.measure if kind == "full"), total)
    return ("<p>Stakes in these proportions gain at every final score, but less than a whole minor "
            "unit within the limits. Under these probabilities all stakes within the limits "
            f"together win at most {decimal(reach, 6)} minor units on average. One minor unit at "
            f"every final score would be {decimal(need, 6)} on average.")


def told_open(match, feeds):
    stage, pivots, *place = match.finding.words
    run = f"the run {STAGES.get(int(stage), stage)}"
    if match.finding.kind == "out-of-pivots":
        return (f"<p>The question is open: {run} used up its budget of {escape(pivots)} pivots. "
                "A larger budget (--pivots) may decide it.")
    where = {"entry": "an entry of its table, at row {} and column {}",
             "weight": "the weight of class {}", "stake": "the stake of offer {}"}
    try:
        what = where[place[0]].format(*place[1:])
    except (KeyError, IndexError):
        what = " ".join(place)
    return (f"<p>The question is open: in {run}, after {escape(pivots)} pivots, a number left its "
            f"range: {escape(what)}.")


def match_piece(place, match, feeds, teams, ranks):
    """One match, closed: its title opens it."""
    finding, gained = match.finding, sure_gain(match, feeds)
    row = teams.get(match.name)
    title = f"{row['home']} – {row['away']}" if row else match.name
    small = " ".join(filter(None, [row.get("date"), match.name])) if row else ""
    told = {"arb": told_arb, "coherent": told_measure, "thin": told_measure,
            "narrow": told_measure}.get(finding.kind, told_open)
    search = escape(f"{title} {small}".lower())
    return (f'<details class=match id=m{place} data-finding={finding.kind} data-place={place} '
            f'data-rank={ranks.get(place, len(ranks))} data-text="{search}"><summary>'
            f"<span class=title>{escape(title)}</span>"
            + (f"<span class=small>{escape(small)}</span>" if small else "")
            + (f"<span class=gain>{money(gained)}</span>" if gained is not None else "")
            + f"<span class='tag t-{finding.kind}'>{finding.kind}</span></summary><div class=body>"
            + told(match, feeds)
            + f"<h3>All offers</h3>{all_offers(match, feeds)}</div></details>")


# ---------------------------------------------------------------------------
# The whole page


def gains_piece(matches, feeds, teams, ranks):
    """The sure gains, greatest first."""
    if not ranks:
        return "<p>No match has a sure gain."
    rows = []
    for place in sorted(ranks, key=ranks.get):
        match = matches[place]
        gained, total = sure_gain(match, feeds), sum(match.finding.parts)
        row = teams.get(match.name)
        title = f"{row['home']} – {row['away']}" if row else match.name
        books = dict.fromkeys(feeds[offer.feed].book for offer, stake
                              in zip(match.offers, match.finding.parts) if stake)
        rows.append(f"<tr><td><a href=#m{place}>{escape(title)}</a><td class=r>{money(gained)}"
                    f"<td class=r>{percent(Fraction(gained, total)) if total else ''}"
                    f"<td class=r>{money(total)}<td>{escape(', '.join(books))}")
    return ("<div class='wide tall'><table class=first><thead><tr><th>Match<th class=r>Sure gain<th class=r>in percent"
            "<th class=r>Stakes<th>Books<tbody>" + "".join(rows) + "</table></div>")


def refused_piece(feeds):
    pieces = [f"<h3>{escape(feed.book)}</h3>" + table(
        ["Line", "Column", "Cause", ""],
        [(line, column, cause, CAUSES.get(cause, "")) for line, column, cause in feed.refused], (0, 1))
        for feed in feeds if feed.refused]
    return "".join(pieces) or "<p>No line of any feed was refused."


def page(name, pivots, feeds, matches, teams):
    counts = Counter(match.finding.kind for match in matches)
    gains = {place: sure_gain(match, feeds) for place, match in enumerate(matches)}
    order = sorted((place for place in gains if gains[place] is not None),
                   key=lambda place: -gains[place])
    ranks = {place: rank for rank, place in enumerate(order)}
    chips = "".join(
        f"<button class=chip data-finding={kind} aria-pressed=false title=\"{TOLD[kind]}\">"
        f"<b>{counts[kind]}</b> {kind}</button>" for kind in KINDS)
    legend = "".join(f"<li><b>{kind}</b>: {TOLD[kind]}" for kind in KINDS if counts[kind])
    parts = {
        "NAME": escape(name), "COUNT": str(len(matches)), "CHIPS": chips, "LEGEND": legend,
        "GAINS": gains_piece(matches, feeds, teams, ranks), "PIVOTS": f"{pivots:,}",
        "FEEDS": table(["Book", "If a match is abandoned, it", "Lines", "Refused", "Feed"],
                       [(feed.book, RULES[feed.rule], feed.lines, len(feed.refused),
                         STOPS.get(feed.stop, feed.stop)) for feed in feeds], (2, 3)),
        "MATCHES": "\n".join(match_piece(place, match, feeds, teams, ranks)
                             for place, match in enumerate(matches)),
        "REFUSED": refused_piece(feeds),
    }
    return re.sub("@([A-Z]+)@", lambda found: parts[found[1]], PAGE)


PAGE = """<!DOCTYPE html>
<html lang="en">
<meta charset="utf-8">
<meta name="viewport" content="width=device-width, initial-scale=1">
<meta http-equiv="Content-Security-Policy"
 content="default-src 'none'; style-src 'unsafe-inline'; script-src 'unsafe-inline'; img-src data:">
<meta name="color-scheme" content="light dark">
<link rel="icon" href="data:,">
<title>arbscan: @NAME@</title>
<style>
:root { --back: #f6f7f9; --card: #fff; --ink: #1b2430; --dim: #5b6675; --rule: #dde2e9;
 --link: #0b5cad; --bad: #a3241b; --tag: #e8ecf2;
 --p1: #e3f4e9; --p2: #c3e8d0; --p3: #98d7ae; --p4: #68c288;
 --n1: #fbe5e2; --n2: #f5c6c0; --n3: #eb9f96; --n4: #df776b;
 --w1: #e2edfa; --w2: #bfd8f4; --w3: #92bcec; --w4: #629fe2; }
@media (prefers-color-scheme: dark) {
:root { --back: #12161c; --card: #1b212a; --ink: #e5eaf1; --dim: #9aa6b5; --rule: #313a46;
 --link: #7db8f5; --bad: #ff9a8f; --tag: #2b3440;
 --p1: #1c3226; --p2: #1f4631; --p3: #215c3d; --p4: #23754b;
 --n1: #3a2322; --n2: #552a28; --n3: #74312d; --n4: #963832;
 --w1: #1b2d42; --w2: #1d3f61; --w3: #1f5384; --w4: #2268a9; } }
* { box-sizing: border-box; }
body { margin: 0 auto; padding: 1rem; max-width: 66rem; background: var(--back); color: var(--ink);
 font: 1rem/1.5 system-ui, sans-serif; font-variant-numeric: tabular-nums; }
h1 { font-size: 1.5rem; margin: .25rem 0; } h2 { font-size: 1.15rem; margin: 2rem 0 .5rem; }
h3 { font-size: .95rem; margin: 1.25rem 0 .25rem; } p { margin: .5rem 0; } a { color: var(--link); }
.dim, .small, .axes { color: var(--dim); font-size: .85rem; } .bad { color: var(--bad); font-weight: 600; }
.wide { overflow-x: auto; } .tall { max-height: 24rem; overflow-y: auto; }
table { border-collapse: collapse; font-size: .9rem; }
th, td { padding: .25rem .6rem; text-align: left; border-bottom: 1px solid var(--rule); white-space: nowrap; }
th { color: var(--dim); font-weight: 600; } .r { text-align: right; }
.chips, .tools { display: flex; flex-wrap: wrap; gap: .5rem; margin: .5rem 0; }
button, input, select { font: inherit; color: inherit; background: var(--card);
 border: 1px solid var(--rule); border-radius: .5rem; padding: .35rem .7rem; }
button { cursor: pointer; } input { flex: 1 1 14rem; min-width: 0; }
.chip[aria-pressed=true] { background: var(--link); border-color: var(--link); color: var(--back); }
ul { margin: .5rem 0; padding-left: 1.2rem; color: var(--dim); font-size: .85rem; }
.match { background: var(--card); border: 1px solid var(--rule); border-radius: .5rem; margin: .4rem 0; }
summary { display: flex; flex-wrap: wrap; gap: 0 .75rem; align-items: baseline; padding: .5rem .75rem; cursor: pointer; }
summary::-webkit-details-marker { display: none; }
.title { font-weight: 600; overflow-wrap: anywhere; } .small { overflow-wrap: anywhere; }
.gain { margin-left: auto; font-weight: 600; } .gain + .tag { margin-left: 0; }
.tag { margin-left: auto; font-size: .8rem; padding: 0 .5rem; border-radius: 1rem; background: var(--tag); }
.t-arb { background: var(--p3); } .t-thin { background: var(--w2); }
.t-narrow, .t-wide, .t-out-of-pivots { background: var(--n2); }
.body { padding: .5rem .75rem .75rem; border-top: 1px solid var(--rule); }
.grids { display: flex; flex-wrap: wrap; gap: 0 2rem; } figure { margin: .75rem 0; min-width: 0; max-width: 100%; }
figcaption, .axes { max-width: 20rem; }
figcaption { font-weight: 600; font-size: .9rem; margin-bottom: .25rem; } .axes { margin: .25rem 0; }
.grid { font-size: .75rem; } .grid th { text-align: center; padding: .2rem .4rem; border: 0; }
.grid td { text-align: right; padding: .3rem .35rem; min-width: 2.6rem; border: 1px solid var(--card); }
.nz { color: var(--dim); background: var(--back); }
.p1 { background: var(--p1); } .p2 { background: var(--p2); } .p3 { background: var(--p3); } .p4 { background: var(--p4); }
.n1 { background: var(--n1); } .n2 { background: var(--n2); } .n3 { background: var(--n3); } .n4 { background: var(--n4); }
.w1 { background: var(--w1); } .w2 { background: var(--w2); } .w3 { background: var(--w3); } .w4 { background: var(--w4); }
.first td:first-child { white-space: normal; min-width: 8rem; }
[hidden] { display: none; }
@media (max-width: 32rem) { body { padding: .75rem; } table { font-size: .8rem; }
 th, td { padding: .25rem .35rem; } .grid { font-size: .7rem; } .grid td { padding: .3rem .2rem; min-width: 2.4rem; } }
</style>
<h1>arbscan report</h1>
<p class=dim>@NAME@, matches: @COUNT@. The page shows what the report says, and checks none of it.
<h2>Findings</h2>
<div class=chips>@CHIPS@</div>
<ul>@LEGEND@</ul>
<h2>Sure gains</h2>
@GAINS@
<h2>Matches</h2>
<div class=tools><input id=search type=search placeholder="Search by name" aria-label="Search by name">
<select id=sort aria-label="Order"><option value=place>by name<option value=rank>by sure gain</select></div>
<p class=dim id=shown></p>
<div id=matches>
@MATCHES@
</div>
<h2>Feeds</h2>
@FEEDS@
<p class=dim>Each exact run had a budget of @PIVOTS@ pivots.
<h2>Refused lines</h2>
@REFUSED@
<h2>How to read the numbers</h2>
<p class=dim>Amounts are in units of a hundred minor units, such as euros for cents. Each is exact,
and so is every number that does not begin with ≈. One that does is rounded to the nearest of its
last digit. A sure gain is the least net at a final score; the net is what all bets pay, each
rounded down to whole minor units, less all stakes. It is worked out at all scores up to 12 goals a
side, which settle like every other. A mean gain is what a bet wins on average under the
probabilities shown, in percent of its stake. A handicap is told from the side that is backed.
<script>
"use strict";
const list = document.getElementById("matches"), search = document.getElementById("search"),
  sort = document.getElementById("sort"), shown = document.getElementById("shown"),
  chips = [...document.querySelectorAll(".chip")], all = [...list.children];
function show() {
  const words = search.value.toLowerCase().split(/\\s+/).filter(Boolean);
  const kinds = chips.filter(chip => chip.ariaPressed === "true").map(chip => chip.dataset.finding);
  let count = 0;
  for (const match of all) {
    const fits = (kinds.length === 0 || kinds.includes(match.dataset.finding))
      && words.every(word => match.dataset.text.includes(word));
    match.hidden = !fits;
    count += fits;
  }
  shown.textContent = count + " of " + all.length + " shown";
}
function order() {
  const key = sort.value;
  list.append(...all.sort((one, other) => one.dataset[key] - other.dataset[key]
    || one.dataset.place - other.dataset.place));
}
function open() {
  const match = /^#m[0-9]+$/.test(location.hash) && document.querySelector(location.hash);
  if (match) { match.hidden = false; match.open = true; match.scrollIntoView(); }
}
for (const chip of chips) chip.addEventListener("click", () => {
  chip.ariaPressed = chip.ariaPressed === "true" ? "false" : "true";
  show();
});
search.addEventListener("input", show);
sort.addEventListener("change", order);
addEventListener("hashchange", open);
show();
open();
</script>
</html>
"""


def main():
    parser = argparse.ArgumentParser(
        description=__doc__, formatter_class=argparse.RawDescriptionHelpFormatter)
    parser.add_argument("report", metavar="REPORT", help="a file with what arbscan wrote")
    parser.add_argument("--names", metavar="TABLE", help="a CSV file with the teams of the matches")
    parser.add_argument("-o", required=True, dest="page", metavar="PAGE.html", help="the page")
    options = parser.parse_args()
    try:
        with open(options.report, encoding="latin-1", newline="") as file:
            pivots, feeds, matches = read_report(file.read())
        teams = read_names(options.names) if options.names else {}
        text = page(os.path.basename(options.report), pivots, feeds, matches, teams)
        with open(options.page, "w", encoding="utf-8", newline="\n") as file:
            file.write(text)
    except Wrong as why:
        print(f"error: {why}", file=sys.stderr)
        return 2
    except OSError as fault:
        print(f"error: {fault}", file=sys.stderr)
        return 2
    return 0


if __name__ == "__main__":
    sys.exit(main())
