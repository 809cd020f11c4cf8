import os
import re
import tempfile
import unittest
from fractions import Fraction

import check_report
import report_page
from tests.samples import HEAD, level, report, run, totals
from tests.test_check_report import NARROW, THIN, all_offers


class Pages(unittest.TestCase):
    def setUp(self):
        folder = tempfile.TemporaryDirectory()
        self.addCleanup(folder.cleanup)
        self.folder = folder.name

    def put(self, name, text):
        path = os.path.join(self.folder, name)
        with open(path, "w", encoding="utf-8", newline="") as file:
            file.write(text)
        return path

    def page(self, text, names=None):
        """The page of a report, without its style and its script."""
        words = ["--names", self.put("names.csv", names)] if names else []
        path = os.path.join(self.folder, "page.html")
        status, out, err = run(report_page.main, self.put("a.report", text), *words, "-o", path)
        self.assertEqual((status, out, err), (0, "", ""))
        with open(path, encoding="utf-8") as file:
            self.whole = file.read()
        return re.sub("(?s)<style>.*</style>|<script>.*</script>", "", self.whole)

    def assert_has(self, page, *texts):
        for text in texts:
            self.assertIn(text, page)

    def test_arb(self):
        page = self.page(report("arb 3 100000 46666 52500"))
        self.assert_has(
            page, "<b>1</b> arb", "<b>0</b> coherent",
            "<tr><td>alpha<td>home win<td class=r>2.100<td class=r>1,000.00<td class=r>2,100.00",
            "<tr><td>alpha<td>away win<td class=r>4.500<td class=r>466.66<td class=r>2,099.97",
            "<td>Total<td><td class=r><td class=r>1,991.66",
            "Sure gain: <b>108.31</b> on 1,991.66, which is ≈\u202f5.438\u202f%",
            "from 108.31 to 108.34, and if the match is abandoned at least 0.00",
            "Net if abandoned at any score: 0.00.", "<span class=gain>108.31</span>",
            "<a href=#m0>m1</a><td class=r>108.31<td class=r>≈\u202f5.438\u202f%<td class=r>1,991.66"
            "<td>alpha, beta")
        self.assertEqual(page.count(">108.34<"), 6 + 15)
        self.assertEqual(page.count(">108.31<"), 15 + 2 + 1)
        self.assertNotIn("no arbitrage", page)

    def test_arb_under_an_abandonment_rule(self):
        page = self.page(totals("arb 2 10000 10000"))
        self.assert_has(page, "Net if abandoned at</figcaption>", "<td class=n4>−100.00", "These stakes are no arbitrage")
        self.assertNotIn("These stakes are no arbitrage", self.page(totals("arb 2 10 10", "void")))

    def test_sure_gains_come_greatest_first(self):
        match = report("arb 3 {} {} {}").partition("match m1")[2].replace("end\n", "")
        page = self.page(HEAD + "match a" + match.format(500, 234, 263)
                         + "match b" + match.format(100000, 46666, 52500) + "end\n")
        self.assertLess(page.index("<a href=#m1>b<"), page.index("<a href=#m0>a<"))
        self.assert_has(page, "data-place=0 data-rank=1", "data-place=1 data-rank=0")

    def test_coherent(self):
        page = self.page(level("coherent 3 full 0 0 1 full 0 1 1 full 7 1 1"))
        self.assert_has(page, "<td class=w4>33.3", "The probability of an abandonment is 0.",
                        "Beyond five goals: a final score 7-1: ≈\u202f33.333\u202f%.",
                        "<td>home win<td class=r>3.000<td class=r>10.00<td class=r>0.00\u202f%")
        page = self.page(totals("coherent 3 full 0 0 110 full 0 3 100 abandoned 0 3 21"))
        self.assert_has(page, "Probability of an abandonment, in percent", "<td class=w4>47.6",
                        "<td class=w1>9.1", "<td class=r>0.00\u202f%")
        page = self.page(totals("coherent 2 full 0 0 9 full 0 3 7"))
        self.assert_has(page, "<td class=r>≈\u202f−8.13\u202f%", "<td class=r>≈\u202f18.13\u202f%")

    def test_thin(self):
        page = self.page(report(THIN, "6"))
        self.assert_has(page, "<td>draw<td class=r>4.000<td class=r>0.06<td class=r>0.0315",
                        "win at most 0.650000 minor units on average",
                        "would be 1.000000 on average", "<td class=w4>52.8")

    def test_findings_that_decide_nothing(self):
        self.assert_has(self.page(report(NARROW, "10")), "fail once each is rounded down",
                        "<td class=r>≈\u202f0.0923")
        self.assert_has(self.page(report("wide 1 7 entry 3 4")), "in the run without limits, after 7 "
                        "pivots, a number left its range: an entry of its table, at row 3 and column 4")
        self.assert_has(self.page(report("wide 3 7 weight 2")), "the weight of class 2")
        self.assert_has(self.page(report("wide 2 7 stake 2")), "the stake of offer 2")
        self.assert_has(self.page(report("out-of-pivots 2 9")),
                        "the run within the limits with slack used up its budget of 9 pivots")

    def test_spoiled_findings_are_shown(self):
        for finding in ("arb 2 1 1", "arb 0", "coherent 0", "coherent 1 full 0 0 0", "thin 0 0 0",
                        "arb 3 0 0 0", "coherent 1 odd 0 0 1", "wide 9 1 odd"):
            self.assertIn("</details>", self.page(report(finding)))
        self.page(HEAD + "match m1 offers 0\nfinding arb 0\nend\n")
        self.page(HEAD + "end\n")

    def test_names_are_shown_as_they_are(self):
        names = '\ufeffmatch,date,home,away\nm1,2025-08-16,"<b>A & ""B""</b>",O\'Neil\n'
        page = self.page(report("arb 3 100000 46666 52500"), names)
        title = "&lt;b&gt;A &amp; &quot;B&quot;&lt;/b&gt; – O&#x27;Neil"
        self.assert_has(page, f"<span class=title>{title}</span>", f"<a href=#m0>{title}</a>",
                        f'data-text="{title.lower()} 2025-08-16 m1"')
        self.assertNotIn("<b>A", page)
        page = self.page(report("arb 3 1 1 1").replace("m1", "<i>&amp;\""))
        self.assert_has(page, "<span class=title>&lt;i&gt;&amp;amp;&quot;</span>")

    def test_refused_lines_and_feeds(self):
        page = self.page(HEAD.replace("lines 2 refused 0 end", "lines 9 refused 2 cut\n"
                                      "refused 1 4 13 BadLine\nrefused 1 7 201 TooLong") + "end\n")
        self.assert_has(
            page, "<td class=r>4<td class=r>13<td>BadLine<td>no handicap or total line",
            "<td class=r>7<td class=r>201<td>TooLong<td>more than 200 bytes",
            "<td>beta<td>gives all stakes back<td class=r>9<td class=r>2<td>longer than the limits")

    def test_nothing_comes_from_elsewhere(self):
        self.page(report("arb 3 100000 46666 52500"))
        self.assertNotRegex(self.whole, "https?:|src=|@import|url\\(|<link (?!rel=\"icon\" href=\"data:)")

    def test_bets_settle_as_in_check_report(self):
        """Two programs, each written from docs/SETTLEMENT.md."""
        for offer in all_offers():
            for outcome in check_report.OUTCOMES:
                self.assertEqual(report_page.gain(offer, offer.rule, outcome),
                                 check_report.gain(offer, outcome))

    def test_numbers(self):
        for value, places, text in ((0, 2, "0.00"), (Fraction(1, 4), 2, "0.25"),
                                    (Fraction(-1, 4), 2, "−0.25"), (1234567, 0, "1,234,567"),
                                    (Fraction(2, 3), 2, "≈\u202f0.67"),
                                    (Fraction(-2, 3), 2, "≈\u202f−0.67"),
                                    (Fraction(2**60, 3), 1, "≈\u202f384,307,168,202,282,325.3")):
            self.assertEqual(report_page.decimal(value, places), text)

    def test_what_cannot_be_shown(self):
        out = os.path.join(self.folder, "page.html")
        good = report("arb 3 1 1 1")
        for text in ("", "x", good.replace("end\n", ""), good.replace("arb 3", "odd 3"),
                     good.replace("arb 3", "arb 4"), good.replace("offer 1", "offer 2"),
                     good.replace("pivots 4096", "pivots"), good.replace("1x2 draw", "ah draw"),
                     good.replace("1x2 draw", "1x2 over"), report("wide x 7 stake 1")):
            status, _, err = run(report_page.main, self.put("a", text), "-o", out)
            self.assertEqual(status, 2, text)
            self.assertTrue(err.startswith("error: "))
        for end in range(len(good) - 1):
            with self.subTest(end), self.assertRaises(report_page.Wrong):
                report_page.read_report(good[:end].removesuffix("end"))
        path = self.put("a", good)
        for words in ((path, "-o", self.folder), (path + "x", "-o", out),
                      (path, "--names", path, "-o", out), (path, "--names", path + "x", "-o", out)):
            self.assertEqual(run(report_page.main, *words)[0], 2)
        self.assertEqual(run(report_page.main, path)[0], 2)
        self.assertEqual(run(report_page.main, "--help")[0], 0)


if __name__ == "__main__":
    unittest.main()
