import itertools
import unittest

import check_report
from check_report import Offer, gain
from tests.samples import HEAD, level, report, run, run_on, totals

THIN = "thin 20 3 120 56 63 3 full 0 0 9 full 0 1 8 full 1 0 19"
NARROW = "narrow 13 3 120 56 63 3 full 0 0 9 full 0 1 8 full 1 0 19"


def over(odds=1900, line=11, rule="void", side="over"):
    return Offer(0, "total", line, side, odds, 100, rule)


class Settlement(unittest.TestCase):
    """Every example of docs/SETTLEMENT.md."""

    def test_a_quarter_line_worked(self):
        home = Offer(0, "ah", -1, "home", 1900, 1000, "void")
        self.assertEqual(check_report.half_lines(-1), (-2, 0))
        self.assertEqual(gain(home, ("full", 0, 0)), -1000)
        text = HEAD + ("match m1 offers 1\noffer 0 ah -0.25 home 1.900 1000\n"
                       "finding arb 1 101\nend\n")
        self.assertEqual(answer_of(text), "no at full 0 0 -51")

    def test_an_abandonment_under_each_rule(self):
        for rule, at_2_1, at_1_1 in (("void", 0, 0), ("score", 900, -2000), ("decided", 900, 0)):
            self.assertEqual(gain(over(rule=rule), ("abandoned", 2, 1)), at_2_1)
            self.assertEqual(gain(over(rule=rule), ("abandoned", 1, 1)), at_1_1)
        self.assertEqual(gain(over(rule="decided"), ("abandoned", 4, 0)), 1800)
        under = over(rule="decided", side="under")
        self.assertEqual(gain(under, ("abandoned", 1, 1)), 0)
        self.assertEqual(gain(under, ("abandoned", 2, 1)), -1000)

    def test_the_five_amounts(self):
        gains = [gain(over(line=line), ("full", 1, 1)) for line in (10, 9, 8, 7, 6)]
        self.assertEqual(gains, [-2000, -1000, 0, 900, 1800])

    def test_stand_ins_that_the_page_names(self):
        home = Offer(0, "ah", -19, "home", 2000, 100, "score")
        for kind in ("full", "abandoned"):
            self.assertEqual(gain(home, (kind, 40, 3)), gain(home, (kind, 7, 1)))
            self.assertEqual(gain(home, (kind, 40, 37)), gain(home, (kind, 6, 3)))

    def test_98_outcomes_stand_for_all(self):
        first = check_report.OUTCOMES[:49]
        self.assertEqual(first[:6], [("full", 0, 0), ("full", 0, 1), ("full", 1, 0),
                                     ("full", 0, 2), ("full", 1, 1), ("full", 2, 0)])
        self.assertEqual(first[36:], [("full", *score) for score in (
            (1, 7), (2, 7), (2, 6), (3, 6), (3, 5), (4, 5), (4, 4), (5, 4), (5, 3), (6, 3),
            (6, 2), (7, 2), (7, 1))])
        self.assertEqual(len(check_report.OUTCOMES), 2 * 13 * 13)
        offers = all_offers()
        told = {tuple(gain(offer, outcome) for offer in offers) for outcome in first}
        for outcome in check_report.OUTCOMES[:169]:
            self.assertIn(tuple(gain(offer, outcome) for offer in offers), told)

    def test_decided_as_it_is_defined(self):
        """A half stands if every later score, up to 9 more a side, settles it alike."""
        for offer in all_offers(("decided",)):
            for home, away in itertools.product(range(6), repeat=2):
                for line in check_report.half_lines(offer.line):
                    later = {check_report.result(offer, line, home + more, away + others)
                             for more in range(12) for others in range(12)}
                    self.assertEqual(
                        check_report.stands_if_abandoned(offer, line, home, away), len(later) == 1)


def all_offers(rules=("void", "score", "decided")):
    """Each market with each side, line and rule."""
    bets = [("1x2", 0, side) for side in ("home", "draw", "away")]
    bets += [("ah", line, side) for line in range(-20, 21) for side in ("home", "away")]
    bets += [("total", line, side) for line in range(2, 31) for side in ("over", "under")]
    return [Offer(0, market, line, side, 2000, 100, rule)
            for market, line, side in bets for rule in rules]


def answer_of(text):
    """What is said of the one match of a report."""
    _, out, _ = run_on(check_report.main, text)
    return out.splitlines()[0].replace("match m1 ", "")


class Findings(unittest.TestCase):
    """Every example of docs/FORMATS.md and docs/CHECKING.md, and spoiled ones."""

    def assert_answers(self, *pairs):
        for text, said in pairs:
            with self.subTest(text.splitlines()[-2]):
                status, out, err = run_on(check_report.main, text)
                self.assertEqual(out, f"match m1 {said}\nend\n")
                self.assertEqual((status, err), (1 if said.startswith("no") else 0, ""))

    def test_arb(self):
        self.assert_answers(
            (report("arb 3 100000 46666 52500"), "yes"),
            (report("arb 3 500 234 263"), "yes"),
            (report("arb 3 500 234 200"), "no at full 0 0 -134"),
            (report("arb 3 100000 40000 52500"), "no at full 0 1 -12500"),
            (report("arb 3 100001 46666 52500"), "no offer 0 100001"),
            (report("arb 2 100000 46666"), "no shape stakes 2"),
            (report("arb 4 1 1 1 1"), "no shape stakes 3"),
            (report("arb 0"), "no shape stakes 0"),
            (report("arb 3 0 0 0"), "no at full 0 0 0"))

    def test_each_payment_is_rounded_down_by_itself(self):
        text = ("arbscan report 1\npivots 1\n"
                + "".join(f"feed {k} b{k} void lines 2 refused 0 end\n" for k in range(3))
                + "match m1 offers 3\noffer 0 total 2.50 over 2.100 100\n"
                "offer 1 total 2.50 over 2.100 100\noffer 2 total 2.50 under 2.100 100\n"
                "finding arb 3 5 5 10\nend\n")
        self.assert_answers((text, "no at full 0 3 0"))

    def test_coherent(self):
        self.assert_answers(
            (level("coherent 3 full 0 0 1 full 0 1 1 full 1 0 1"), "yes"),
            (level("coherent 3 full 0 0 2 full 0 1 1 full 1 0 1"), "no offer 1 4000"),
            (level("coherent 2 full 0 0 1 full 0 0 1"), "no shape measure 1"),
            (level("coherent 1 abandoned 0 0 1"), "no shape measure 1"),
            (level("coherent 0"), "no shape measure 0"),
            (level("coherent 1 full 0 0 0"), "no shape measure 0"),
            (level(f"coherent 1 full 0 0 {2**60}"), "no shape measure 0"),
            (level(f"coherent 1 full {2**40 + 1} 0 1"), "no shape measure 0"),
            (level(f"coherent 3 full {2**40} {2**40} 1 full 0 {2**40} 1 full 9 0 1"), "yes"),
            (report("coherent 3 full 0 0 63 full 0 1 56 full 1 0 120"), "no offer 0 26000"))

    def test_coherent_by_an_abandonment(self):
        measure = "coherent 3 full 0 0 110 full 0 3 100 abandoned 0 3 21"
        self.assert_answers(
            (totals(measure), "yes"),
            (totals("coherent 2 full 0 0 110 full 0 3 100"), "no offer 1 42000"),
            (totals("arb 2 10000 10000"), "no at abandoned 0 3 -10000"),
            (totals("arb 2 10000 10000", "void"), "yes"),
            (totals("arb 2 10000 10000", "decided"), "no at abandoned 0 3 -10000"),
            (totals(measure, "void"), "no offer 1 42000"))

    def test_thin(self):
        self.assert_answers(
            (report(THIN, "6"), "yes"),
            (report("thin 120 3 120 56 63 3 full 0 0 63 full 0 1 56 full 1 0 120", "1"), "yes"),
            (report(THIN, "10"), "no bound 78000 72000"),
            (report(THIN, "5"), "no offer 0 120"),
            (report(THIN.replace("56", "28"), "6"), "no at full 0 1 -170000"),
            (report(THIN.replace("20 3", "0 3", 1), "6"), "no shape stakes 3"),
            (report(THIN.replace("20 3", f"{2**60} 3", 1), "6"), "no shape stakes 3"),
            (report(THIN.replace(" 63 ", f" {2**60} "), "6"), "no shape stakes 2"),
            (report(THIN.replace("full", "abandoned"), "6"), "no shape measure 3"),
            (report("thin 20 2 120 56 0", "6"), "no shape stakes 2"),
            (report("thin 120 3 120 56 63 3 full 0 0 63 full 0 1 56 full 1 0 120"),
             "no bound 7800000000 478000"))

    def test_findings_that_decide_nothing(self):
        for finding in (NARROW, "narrow 0 0 0", "wide 1 7 entry 3 4", "wide 3 0 weight 5",
                        "wide 2 0 stake 5", "out-of-pivots 1 1"):
            self.assert_answers((report(finding, "10"), "unsettled"))

    def test_matches_and_offers_of_all_kinds(self):
        head = "arbscan report 1\npivots 65536\nfeed 0 007 decided lines 16384 refused 0 cut\n"
        text = head + ("match 0 offers 0\nfinding coherent 1 full 0 0 1\n"
                       "match 00 offers 5\noffer 0 1x2 away 1.001 1\noffer 0 ah -5.00 home 2.000 1\n"
                       "offer 0 ah 0.00 away 2.000 1\noffer 0 total 0.50 over 1000.000 1\n"
                       "offer 0 total 7.50 under 2.000 100000000\nfinding arb 5 0 0 0 0 0\nend\n")
        self.assertEqual(run_on(check_report.main, text),
                         (1, "match 0 yes\nmatch 00 no at full 0 0 0\nend\n", ""))


class Reading(unittest.TestCase):
    GOOD = report("arb 3 100000 46666 52500", head=HEAD.replace(
        "lines 3 refused 0 end\n", "lines 4 refused 2 end\nrefused 0 2 13 BadLine\n"
        "refused 0 4 201 TooLong\n", 1))

    def assert_wrong(self, text, line):
        status, out, err = run_on(check_report.main, text)
        self.assertEqual((status, out), (2, f"error: the report is wrong at line {line}\n"), err)
        self.assertTrue(err)

    def test_a_report_with_refused_lines(self):
        self.assertEqual(run_on(check_report.main, self.GOOD), (0, "match m1 yes\nend\n", ""))

    def test_each_line_spoiled(self):
        for old, new, line in (
                ("report 1", "report 2", 1), ("pivots 4096", "pivots 0", 2),
                ("pivots 4096", "pivots 65537", 2), ("pivots 4096", "pivots 04096", 2),
                ("feed 0", "feed 1", 3), ("alpha void", "alpha none", 3),
                ("refused 2", "refused 4", 3), ("lines 4", "lines 16385", 3),
                ("refused 0 2", "refused 0 1", 4), ("BadLine", "BadLuck", 4),
                ("refused 0 4", "refused 0 2", 5), ("refused 0 4", "refused 1 4", 5),
                ("refused 0 4", "refused 0 5", 5), ("201", "202", 5), ("beta", "alpha", 6),
                ("lines 2", "lines 0", 6), ("match m1", "match m/1", 7),
                ("offers 3", "offers 257", 7), ("offers 3", "offers 2", 10),
                ("offers 3", "offers 4", 11), ("home 2.100", "home 2.10", 8),
                ("home 2.100", "over 2.100", 8), ("home 2.100", "home 1.000", 8),
                ("offer 1", "offer 2", 10), ("offer 0 1x2 away", "offer 0 1x2 home", 9),
                ("4.000 100000", "4.000 0", 10), ("4.000 100000", "4.000 100000001", 10),
                ("1x2 draw", "total 2.30 over", 10), ("1x2 draw", "ah -0.00 home", 10),
                ("1x2 draw", "ah 5.25 home", 10), ("1x2 draw", "total 0.25 over", 10),
                ("refused 2 end", "refused 2 stop", 3), ("52500\nend\n", "52500\n", 12),
                ("52500\nend\n", "52500\nend", 12), ("52500\nend\n", "52500\nend\nmore", 13),
                ("52500\nend\n", "52500\r\nend\n", 11), ("52500\nend\n", "52500\nend\n\n", 13)):
            with self.subTest(new):
                self.assertIn(old, self.GOOD)
                self.assert_wrong(self.GOOD.replace(old, new, 1), line)
        self.assert_wrong("", 1)
        self.assert_wrong(b"\xff\n", 1)

    def test_each_text_that_ends_early(self):
        for end in range(len(self.GOOD)):
            with self.subTest(end), self.assertRaises(check_report.Wrong):
                check_report.read_report(check_report.Text(self.GOOD[:end].encode()))

    def test_matches_rise(self):
        match = "match m1 offers 0\nfinding coherent 1 full 0 0 1\n"
        self.assert_wrong(HEAD + match + match + "end\n", 7)

    def test_findings_of_no_form(self):
        for finding in ("arb 02 5 5", "arb 2 5", "arb 2 5 5 5", "arb 257", f"arb 1 {2**32}",
                        "arb 1  5", "arb 1 -5", "arb", "", "odd 1", "coherent 1 half 0 0 1",
                        "coherent 1025", "coherent 1 full 0 0", f"coherent 1 full 0 0 {2**64}",
                        "thin 20 3 120 56 63", "wide 0 1 weight 1", "wide 4 1 weight 1",
                        "wide 1 1 column 1", f"out-of-pivots 1 {2**32}", "out-of-pivots 1 1 1",
                        "arb 1 1" + 5000 * "0"):
            with self.subTest(finding[:30]):
                self.assert_wrong(report(finding), 9)

    def test_no_file(self):
        status, out, _ = run(check_report.main, "no/such/file")
        self.assertEqual((status, out), (2, "error: the report cannot be opened\n"))
        self.assertEqual(run(check_report.main)[0], 2)
        self.assertEqual(run(check_report.main, "--help")[0], 0)

    def test_an_auditor_reads_it_in_one_sitting(self):
        with open(check_report.__file__, encoding="ascii") as file:
            self.assertLessEqual(len(file.readlines()), 300)


if __name__ == "__main__":
    unittest.main()
