#!/usr/bin/env python3
"""Tries `tools/check_report.py` on generated sheets, with what `arbscan` finds for them. It is no part of the gate.

    bench/tools.py [--program PATH] [--verify PATH] [--sheets 2000] [--seed 1] [--keep FOLDER]

PATH is the built program: crates/arbscan/out/arbscan if not given. The sheets are quoted by four books of all three rules,
250 matches a run, at odds near the fair ones and with limits from 1 to 100000, so that all kinds of verdicts come.

- On each report as it is, the checker must say `yes` of each verdict and `unsettled` of every other finding.
- Then one number of each verdict is changed so that it is wrong, and the checker must say `no`. Whether it is wrong is told
  by the definitions, with the settlement of `bench/sheets.py`, which shares no code with the checker or the crates.
- With `--verify PATH` the output of `PATH verify REPORT` must be the same as the checker's, on each of these reports.

Prints how many findings of each kind there were, and each disagreement; ends with status 1 if there is one.
"""

import argparse
import collections
import pathlib
import random
import subprocess
import sys
import tempfile

import sheets

CHECKER = pathlib.Path(__file__).resolve().parent.parent / "tools" / "check_report.py"
PROGRAM = pathlib.Path(__file__).resolve().parent.parent / "crates" / "arbscan" / "out" / "arbscan"
BOOKS = [("b0", "void"), ("b1", "score"), ("b2", "decided"), ("b3", "void")]
MATCHES = 250
MOST_PART = 2**60 - 1
VERDICTS = ("arb", "coherent", "thin")
OUTCOMES = [(kind, home, away) for kind in ("full", "abandoned") for home, away in sheets.scores()]


def groups():
    """Selections that are quoted together: the results, the two sides of a handicap, the two sides of a total."""
    both = [[("ah", line, side) for side in ("home", "away")] for line in range(-6, 7)]
    both += [[("total", line, side) for side in ("over", "under")] for line in range(5, 20)]
    return [[("1x2", 0, side) for side in ("home", "draw", "away")]] * 8 + both


def quotes_of_match(chance, fair):
    """The quotes of one match: a book, a selection, odds and a limit."""
    margin = chance.uniform(-0.05, 0.06)
    most = chance.choice([1, 9, 60, 1000, 100_000])
    for group in chance.sample(groups(), chance.randint(1, 3)):
        for selection in group:
            for book in chance.sample(range(4), chance.randint(1, 2)):
                odds = round(fair[selection] * (1 - margin) * chance.uniform(0.97, 1.03))
                yield book, selection, max(1001, odds), chance.randint(1, most)


def write_feeds(folder, chance, fair, count):
    feeds = [[f"feed 1 {name} {rule}"] for name, rule in BOOKS]
    for number in range(count):
        for book, selection, odds, limit in quotes_of_match(chance, fair):
            feeds[book].append(f"quote m{number:03} {sheets.selection_text(selection)} "
                               f"{odds // 1000}.{odds % 1000:03} {limit}")
    paths = [folder / f"{name}.feed" for name, _ in BOOKS]
    for path, lines in zip(paths, feeds):
        path.write_text("\n".join(lines) + "\n")
    return paths


def read_offer(words):
    feed, market, *line, side, odds, limit = words[1:]
    sign, digits = (-1, line[0][1:]) if line and line[0][0] == "-" else (1, line[0] if line else "0.00")
    quarters = sign * int(digits.replace(".", "")) // 25
    return (market, quarters, side), BOOKS[int(feed)][1], int(odds.replace(".", "")), int(limit)


def matches_of(report):
    """For each match the place of its finding's line, its offers and its finding's words."""
    offers = []
    for place, line in enumerate(report):
        words = line.split(" ")
        if words[0] == "match":
            offers = []
        elif words[0] == "offer":
            offers.append(read_offer(words))
        elif words[0] == "finding":
            yield place, offers, words[1:]


def gain(offer, outcome):
    selection, rule, odds, _ = offer
    return sheets.gain(selection, rule, odds, outcome[0] == "full", *outcome[1:])


def is_measure(measure):
    """One to 1,024 different outcomes with weights in range, one of them a final score."""
    outcomes = [outcome for outcome, _ in measure]
    return (len(set(outcomes)) == len(outcomes) and all(1 <= weight <= MOST_PART for _, weight in measure)
            and all(max(home, away) <= 2**40 for _, home, away in outcomes) and any(o[0] == "full" for o in outcomes))


def is_right(offers, words):
    """Whether a verdict with as many stakes as there are offers is right, by the definitions alone."""
    kind, *words = words
    divisor = int(words.pop(0)) if kind == "thin" else 1
    parts = [int(words.pop(0)) for _ in range(int(words.pop(0)))] if kind != "coherent" else []
    flat = words[1:]
    measure = [((flat[k], int(flat[k + 1]), int(flat[k + 2])), int(flat[k + 3])) for k in range(0, len(flat), 4)]
    if kind != "arb" and not is_measure(measure):
        return False
    means = [sum(weight * gain(offer, outcome) for outcome, weight in measure) for offer in offers]
    if kind == "coherent":
        return all(mean <= 0 for mean in means)
    if not 1 <= divisor <= MOST_PART or any(not part <= min(MOST_PART, offer[3] * divisor) for part, offer in zip(parts, offers)):
        return False
    for outcome in OUTCOMES:
        gains = [(part, gain(offer, outcome)) for part, offer in zip(parts, offers)]
        won = sum(part * (2000 + g) // 2000 - part if kind == "arb" else part * g for part, g in gains)
        if won < (outcome[0] == "full"):
            return False
    need = 2000 * sum(weight for outcome, weight in measure if outcome[0] == "full")
    return kind == "arb" or sum(max(0, mean) * offer[3] for mean, offer in zip(means, offers)) < need


def spoiled(chance, offers, words):
    """The words with one number changed so that the verdict is wrong. Counts stay, since they are no part of it."""
    kind = words[0]
    counts = {"arb": [1], "coherent": [1], "thin": [2, 3 + len(offers)]}[kind]
    places = [place for place, word in enumerate(words) if word.isdigit() and place not in counts]
    for _ in range(1000):
        if not places:
            break
        place, changed = chance.choice(places), list(words)
        old = int(words[place])
        new = chance.choice([0, old + 1, max(0, old - 1), 2 * old, old // 2, old + chance.randint(1, 100), 2**32 - 1, 2**60])
        if new == old or (kind == "arb" and new >= 2**32) or new >= 2**64:
            continue
        changed[place] = str(new)
        if not is_right(offers, changed):
            return changed
    return None


def said_of(command, path):
    return subprocess.run([*command, path], capture_output=True, text=True, check=False).stdout.splitlines()


class Tally:
    def __init__(self, verify):
        self.verify, self.counts, self.faults = verify, collections.Counter(), 0

    def check(self, path, wanted):
        """Each match's line, against the words that it must begin with, and against those of `verify`."""
        said = said_of([sys.executable, CHECKER], path)
        if len(said) != len(wanted) + 1 or said[-1] != "end":
            return self.fault(f"{path}: {said[:1]}")
        for line, words in zip(said, wanted):
            if words is not None and not line.split(" ", 2)[2].startswith(words):
                self.fault(f"{path}: {line}, and not {words}")
            self.counts[" ".join(line.split(" ")[2:4])] += 1
        if self.verify and said_of([self.verify, "verify"], path) != said:
            self.fault(f"{path}: verify says something else")

    def fault(self, text):
        self.faults += 1
        print(text)


def one_run(options, chance, fair, folder, count, tally):
    paths = write_feeds(folder, chance, fair, count)
    report = subprocess.run([options.program, "once", *paths], capture_output=True, text=True, check=True).stdout
    (folder / "report").write_text(report)
    lines, wanted, changed = report.splitlines(), [], []
    for place, offers, words in list(matches_of(lines)):
        tally.counts[f"finding {words[0]}"] += 1
        verdict = words[0] in VERDICTS
        if verdict and not is_right(offers, words):
            tally.fault(f"{folder}: line {place + 1} is no right verdict")
        wanted.append("yes" if verdict else "unsettled")
        new = spoiled(chance, offers, words) if verdict else None
        tally.counts["changed"] += new is not None
        changed.append("no" if new else wanted[-1])
        lines[place] = "finding " + " ".join(new or words)
    (folder / "spoiled").write_text("\n".join(lines) + "\n")
    tally.check(folder / "report", wanted)
    tally.check(folder / "spoiled", changed)


def main():
    parser = argparse.ArgumentParser(description=__doc__, formatter_class=argparse.RawDescriptionHelpFormatter)
    parser.add_argument("--program", default=PROGRAM, metavar="PATH")
    parser.add_argument("--verify", metavar="PATH")
    parser.add_argument("--sheets", type=int, default=2000)
    parser.add_argument("--seed", type=int, default=1)
    parser.add_argument("--keep", metavar="FOLDER", help="where the feeds and reports are left")
    options = parser.parse_args()
    chance, tally = random.Random(options.seed), Tally(options.verify)
    fair = {selection: sheets.fair_odds(selection) for group in groups() for selection in group}
    with tempfile.TemporaryDirectory() as temporary:
        for first in range(0, options.sheets, MATCHES):
            folder = pathlib.Path(options.keep or temporary) / f"run-{first // MATCHES}"
            folder.mkdir(parents=True, exist_ok=True)
            one_run(options, chance, fair, folder, min(MATCHES, options.sheets - first), tally)
    for name, count in sorted(tally.counts.items()):
        print(f"{count:6} {name}")
    print(f"{tally.faults} disagreements")
    return 1 if tally.faults else 0


if __name__ == "__main__":
    sys.exit(main())
