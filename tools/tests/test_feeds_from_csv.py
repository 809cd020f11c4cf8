import csv
import os
import tempfile
import unittest

import feeds_from_csv
from tests.samples import run

HEADER = ("Div,Date,Time,HomeTeam,AwayTeam,FTHG,FTAG,B365H,B365D,B365A,PSH,PSD,PSA,VCH,VCD,VCA,"
          "MaxH,MaxD,MaxA,B365>2.5,B365<2.5,P>2.5,P<2.5,AHh,B365AHH,B365AHA,PAHH,PAHA,"
          "B365CH,B365CD,B365CA,VCCH,VCCD,VCCA,PC>2.5,PC<2.5,AHCh,B365CAHH,B365CAHA")
ROW = ("E0,16/08/2024,20:00,Man United,Fulham,1,0,1.6,4.2,5.25,1.63,4.38,5.3,1.61,4.2,5,"
       "1.68,4.5,5.5,1.53,2.5,1.56,2.56,-1,2.05,1.88,2.09,1.86,"
       "1.66,4.2,5,1.67,4.2,5.1,1.6,2.4,-0.75,1.86,2.07")


class Folder(unittest.TestCase):
    def setUp(self):
        folder = tempfile.TemporaryDirectory()
        self.addCleanup(folder.cleanup)
        self.folder = folder.name

    def path(self, *names):
        return os.path.join(self.folder, *names)

    def put(self, text, name="a.csv"):
        with open(self.path(name), "wb") as file:
            file.write(text if isinstance(text, bytes) else text.encode())
        return self.path(name)

    def run_on(self, text, *words, status=0):
        """Runs on one file: the messages, with the folder's name left out."""
        at, out, err = run(feeds_from_csv.main, self.put(text), *words, "--out", self.path("out"))
        self.assertEqual(at, status, err)
        self.out = out
        return err.replace(self.folder + os.sep, "")

    def feed(self, name):
        with open(self.path("out", name), "rb") as file:
            return file.read().decode("ascii").splitlines()

    def names(self):
        with open(self.path("out", "names.csv"), encoding="utf-8", newline="") as file:
            return list(csv.DictReader(file))


class Feeds(Folder):
    def test_one_feed_a_book(self):
        err = self.run_on(HEADER + "\n" + ROW + "\n", "--rule", "VC=decided", "--limit", "500")
        self.assertEqual(err, "")
        match = "quote 20240816-ManUnited-Fulham"
        self.assertEqual(sorted(os.listdir(self.path("out"))),
                         ["B365.feed", "PS.feed", "VC.feed", "names.csv"])
        self.assertEqual(self.feed("B365.feed"), [
            "feed 1 B365 void", f"{match} 1x2 home 1.600 500", f"{match} 1x2 draw 4.200 500",
            f"{match} 1x2 away 5.250 500", f"{match} total 2.50 over 1.530 500",
            f"{match} total 2.50 under 2.500 500", f"{match} ah -1.00 home 2.050 500",
            f"{match} ah -1.00 away 1.880 500"])
        self.assertEqual(len(self.feed("PS.feed")), 8)
        self.assertEqual(self.feed("PS.feed")[4], f"{match} total 2.50 over 1.560 500")
        self.assertEqual(self.feed("VC.feed")[0], "feed 1 VC decided")
        self.assertEqual(self.names(), [{
            "match": "20240816-ManUnited-Fulham", "date": "2024-08-16", "home": "Man United",
            "away": "Fulham", "file": "a.csv", "row": "2", "set": ""}])

    def test_closing_odds(self):
        self.run_on(HEADER + "\n" + ROW, "--closing")
        match = "quote 20240816-ManUnited-Fulham"
        self.assertEqual(self.feed("B365.feed")[1:], [
            f"{match} 1x2 home 1.660 10000", f"{match} 1x2 draw 4.200 10000",
            f"{match} 1x2 away 5.000 10000", f"{match} ah -0.75 home 1.860 10000",
            f"{match} ah -0.75 away 2.070 10000"])
        self.assertEqual(self.feed("PS.feed")[1:], [
            f"{match} total 2.50 over 1.600 10000", f"{match} total 2.50 under 2.400 10000"])
        self.assertEqual(self.feed("VC.feed")[1], f"{match} 1x2 home 1.670 10000")

    def test_books_are_chosen(self):
        self.run_on(HEADER + "\n" + ROW, "--books", "P,Max")
        self.assertEqual(sorted(os.listdir(self.path("out"))),
                         ["Max.feed", "PS.feed", "names.csv"])
        for words in (["--books", "WH"], ["--books", "PS,P"], ["--rule", "WH=void"],
                      ["--rule", "PS=none"], ["--rule", "PS"], ["--limit", "0"]):
            self.run_on(HEADER + "\n" + ROW, *words, status=2)

    def test_more_than_eight_books(self):
        header = ",".join(f"{book}{side}" for book in "QRSTUVWXY" for side in "HDA")
        err = self.run_on(f"Date,HomeTeam,AwayTeam,{header}\n", status=2)
        self.assertIn("there are 9 books; choose 1 to 8 with --books: Q,R,S", err)

    def test_list(self):
        path = self.put(HEADER + "\n" + ROW + "\n,,\n")
        status, out, err = run(feeds_from_csv.main, path, "--list")
        self.assertEqual((status, err), (0, ""))
        self.assertEqual(out.splitlines()[1:], [
            "  B365    1x2, totals, handicaps  closing: 1x2, handicaps",
            "  PS      1x2, totals, handicaps  closing: totals",
            "  VC      1x2  closing: 1x2", "  Max     1x2  (no book: of several)"])
        self.assertEqual(out.splitlines()[0], f"{path}: 1 rows")

    def test_statistics_are_no_books(self):
        path = self.put(
            "Div,Date,Time,HomeTeam,AwayTeam,FTHG,FTAG,FTR,HTHG,HTAG,HTR,Referee,HS,AS,HST,AST,HF,AF,HC,"
            "AC,HY,AY,HR,AR,B365H,B365D,B365A,1XBH,1XBD,1XBA,MaxH,MaxD,MaxA,BFEH,BFED,BFEA,P>2.5,P<2.5,"
            "BFE>2.5,BFE<2.5,AHh,B365AH,B365AHH,B365AHA,PAHH,PAHA,MaxAHH,MaxAHA,B365CH,B365CD,B365CA,"
            "1XBCH,1XBCD,1XBCA,MaxCH,MaxCD,MaxCA,PC>2.5,PC<2.5,AHCh,B365CAHH,B365CAHA,PCAHH,PCAHA\n")
        _, out, _ = run(feeds_from_csv.main, path, "--list")
        self.assertEqual(out.splitlines()[1:], [
            "  B365    1x2, handicaps  closing: 1x2, handicaps", "  1XB     1x2  closing: 1x2",
            "  Max     1x2, handicaps  closing: 1x2  (no book: of several)", "  BFE     1x2, totals",
            "  PS      totals, handicaps  closing: totals, handicaps"])

    def test_the_same_on_each_run(self):
        text = HEADER + "\n" + ROW + "\n" + ROW + "\n"
        self.run_on(text)
        first = {name: self.feed(name) for name in os.listdir(self.path("out"))}
        self.run_on(text)
        self.assertEqual(first, {name: self.feed(name) for name in os.listdir(self.path("out"))})

    def test_feeds_of_another_run_are_not_mixed_in(self):
        self.run_on(HEADER + "\n" + ROW)
        err = self.run_on(HEADER + "\n" + ROW, "--books", "VC", status=2)
        self.assertIn("is of another run", err)

    def test_more_than_256_matches(self):
        rows = "".join(f"16/08/2024,Home {number},Away,2,3,4\n" for number in range(600))
        err = self.run_on("Date,HomeTeam,AwayTeam,XH,XD,XA\n" + rows)
        self.assertEqual(err, "")
        self.assertIn("more than 256 matches: spread over set-1 to set-3", self.out)
        self.assertEqual([len(self.feed(f"set-{number}/X.feed")) for number in (1, 2, 3)],
                         [1 + 3 * 256, 1 + 3 * 256, 1 + 3 * 88])
        self.assertEqual([self.names()[row]["set"] for row in (0, 255, 256, 599)],
                         ["1", "1", "2", "3"])

    def test_no_files_of_this_kind(self):
        for text in (b"", b"Date,HomeTeam\n", b'Date,HomeTeam,AwayTeam,"XH\n', b"\xff\xfe\x00\n",
                     b"Date,HomeTeam,AwayTeam\n1/1/2024,A,B\n",
                     b"Date,HomeTeam,AwayTeam,XH,XD,XH\n"):
            self.assertTrue(self.run_on(text, status=2).startswith("error: "))
        self.assertEqual(run(feeds_from_csv.main, self.path("none"), "--list")[0], 2)
        self.assertEqual(run(feeds_from_csv.main, self.put("x"))[0], 2)
        self.assertEqual(run(feeds_from_csv.main, "--help")[0], 0)


class Texts(Folder):
    """Files as people have them."""

    HEAD = "Date,HomeTeam,AwayTeam,XH,XD,XA\n"

    def test_quoted_team_and_comma_inside_quotes(self):
        self.run_on(self.HEAD + '16/08/24,"Rovers, The","O""Neil\'s & <Sons>",2,3,4\n')
        self.assertEqual(self.feed("X.feed")[1],
                         "quote 20240816-RoversThe-ONeilsSons 1x2 home 2.000 10000")
        self.assertEqual((self.names()[0]["home"], self.names()[0]["away"]),
                         ("Rovers, The", 'O"Neil\'s & <Sons>'))

    def test_byte_order_mark_and_windows_line_ends(self):
        text = self.HEAD + "16/08/24,A,B,2,3,4\n\n17/08/24,C,D,2,x,4\n"
        err = self.run_on(b"\xef\xbb\xbf" + text.replace("\n", "\r\n").encode())
        self.assertEqual(err, "a.csv row 4 column XD: left out, no number: x\n")
        self.assertEqual(len(self.feed("X.feed")), 1 + 3 + 2)
        self.assertEqual(self.feed("X.feed")[-1], "quote 20240817-C-D 1x2 away 4.000 10000")

    def test_latin_1_letters(self):
        text = self.HEAD + "16/08/24,K\xf6ln,\xc9toile,2,3,4\n"
        for data in (text.encode("latin-1"), text.encode("utf-8")):
            self.assertEqual(self.run_on(data), "")
            self.assertEqual(self.names()[0]["match"], "20240816-Koln-Etoile")
            self.assertEqual(self.names()[0]["home"], "K\xf6ln")

    def test_missing_column(self):
        err = self.run_on("Date,HomeTeam,AwayTeam,XH,XA,X>2.5,XAHH,XAHA\n16/08/24,A,B,2,4,1.9,2,2\n")
        self.assertEqual(err.splitlines(), [
            "a.csv: X has no column of 1x2 that ends in D",
            "a.csv: X has no column of totals that ends in <2.5",
            "a.csv has no column AHh: no handicaps of X"])
        self.assertEqual(len(self.feed("X.feed")), 1 + 3)
        err = self.run_on("Date,HomeTeam,XH,XD,XA\n16/08/24,A,2,3,4\n", status=2)
        self.assertEqual(err, "error: a.csv has no column AwayTeam\n")

    def test_cells_that_are_left_out(self):
        cells = (("", "empty"), ('"2,10"', "no number: 2,10"), ("-2", "no number: -2"),
                 ("1", "out of range, 1.001 to 1000: 1"), ("0", "out of range, 1.001 to 1000: 0"),
                 ("1000.001", "out of range, 1.001 to 1000: 1000.001"),
                 ("2.1005", "more than three decimals: 2.1005"), ("1e1", "no number: 1e1"),
                 ("nan", "no number: nan"), ("12345678901234567890",
                                             "out of range, 1.001 to 1000: 12345678901234567890"))
        rows = "".join(f"16/08/24,A{number},B,{cell},3,4\n" for number, (cell, _) in enumerate(cells))
        err = self.run_on(self.HEAD + rows)
        self.assertEqual(err.splitlines(), [
            f"a.csv row {row} column XH: left out, {why}" for row, (_, why) in enumerate(cells, 2)])
        self.assertEqual(len(self.feed("X.feed")), 1 + 2 * len(cells))

    def test_cells_at_their_ends(self):
        self.assertEqual(self.run_on(self.HEAD + "16/08/24,A,B,1.001,1000, 2.1000 \n"), "")
        self.assertEqual([line.split()[4] for line in self.feed("X.feed")[1:]],
                         ["1.001", "1000.000", "2.100"])

    def test_handicap_lines(self):
        head = "Date,HomeTeam,AwayTeam,AHh,XAHH,XAHA\n"
        lines = (("0", "0.00"), ("-0", "0.00"), ("-0.25", "-0.25"), ("+1.5", "1.50"),
                 ("5", "5.00"), ("-5.00", "-5.00"), ("0.750", "0.75"))
        self.run_on(head + "".join(f"16/08/24,A,B{k},{line},2,2\n" for k, (line, _)
                                   in enumerate(lines)))
        self.assertEqual([line.split()[3] for line in self.feed("X.feed")[1::2]],
                         [line for _, line in lines])
        for line, why in (("", "empty"), ("0.3", "no line of quarter goals: 0.3"),
                          ("5.25", "out of range, -5 to 5: 5.25"), ("-10", "out of range, -5 to 5: -10"),
                          ("half", "no number: half")):
            err = self.run_on(head + f"16/08/24,A,B,{line},2,2\n")
            self.assertEqual(err, f"a.csv row 2 column AHh: left out, {why}; so are XAHH, XAHA\n")

    def test_two_matches_of_one_name(self):
        row = "16/08/24,Real Atletico Norte,Real Atletico Sur,2,3,4\n"
        err = self.run_on(self.HEAD + row + row.replace("Sur", "Este") + row)
        self.assertEqual([each["match"] for each in self.names()], [
            "20240816-RealAtletic-RealAtletic", "20240816-RealAtletic-RealAtlet.2",
            "20240816-RealAtletic-RealAtlet.3"])
        self.assertEqual(len(self.feed("X.feed")), 1 + 9)
        self.assertEqual(err.count("it is named"), 2)

    def test_rows_that_are_no_matches(self):
        err = self.run_on(self.HEAD + "16/08/24,A,B,2,3,4,,\n16/08/24,A,C,2,3,4,5\n,,,,,\n"
                          "2024-08-17,A,D\n31/02/24,A,E,2,3,4\n16/08/24,,F,2,3,4\n")
        self.assertEqual(err.splitlines(), [
            "a.csv row 3: left out, it has more cells than the header has names",
            "a.csv row 6 column Date: row left out, no date: 31/02/24",
            "a.csv row 7 column HomeTeam: row left out, the cell is empty",
            "a.csv row 5 column XH: left out, empty", "a.csv row 5 column XD: left out, empty",
            "a.csv row 5 column XA: left out, empty"])
        self.assertEqual(len(self.names()), 2)


if __name__ == "__main__":
    unittest.main()
