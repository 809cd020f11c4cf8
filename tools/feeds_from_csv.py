#!/usr/bin/env python3
"""Turns public odds data into feeds for arbscan.

    feeds_from_csv.py FILE.. --list
    feeds_from_csv.py FILE.. --out FOLDER [--books A,B,..] [--rule BOOK=RULE ..]
                      [--limit N] [--closing]

FILE is a CSV file in the columns of football-data.co.uk: Date, HomeTeam, AwayTeam, and
for each book a prefix with these endings:

    1X2          H, D, A                      B365H, PSD, WHA
    totals       >2.5, <2.5                   B365>2.5, P<2.5
    handicaps    AHH, AHA, the line in AHh    B365AHH, PAHA
    closing      C behind the prefix, AHCh    B365CH, PC>2.5, B365CAHH

P and PS are one book, PS. Max, Avg, BbMx and BbAv are no books but the highest and the
mean odds of several, so they are taken only if --books names them.

FOLDER gets one feed a book, BOOK.feed, and names.csv, which says which match has which
name. If there are more than 256 matches, which is what a feed may have, it gets the folders
set-1, set-2 .. with the feeds of 256 matches each. The same files and words give the same
feeds. Odds are copied as they are. A cell that is empty, no number or out of range is left
out, with a line on standard error that names file, row and column; nothing is guessed. Rows
are counted as a spreadsheet does: the header is row 1.

This program is not proved, and arbscan needs none of it.
"""

import argparse
import csv
import datetime
import io
import os
import re
import sys
import unicodedata
from collections import namedtuple

MATCHES_OF_A_FEED = 256
MOST_FEEDS = 8
RULES = ("void", "score", "decided")
NO_BOOKS = ("Max", "Avg", "BbMx", "BbAv")
NEEDED = ("Date", "HomeTeam", "AwayTeam")
MARKETS = {"1x2": ("H", "D", "A"), "totals": (">2.5", "<2.5"), "handicaps": ("AHH", "AHA")}
SIDES = {"H": "1x2 home", "D": "1x2 draw", "A": "1x2 away", ">2.5": "total 2.50 over",
         "<2.5": "total 2.50 under", "AHH": "ah {} home", "AHA": "ah {} away"}
NAME = re.compile("[A-Za-z0-9_.-]{1,30}")

# One row that is a match: the file and row where it stands, its name, and its cells.
Match = namedtuple("Match", "file row name date home away cells")


class Stop(Exception):
    """What keeps the program from going on."""


def note(text):
    print(text, file=sys.stderr)


# ---------------------------------------------------------------------------
# Reading the tables


def read_table(path):
    """The column names of a file, and its rows with their numbers."""
    try:
        with open(path, "rb") as file:
            data = file.read()
    except OSError as fault:
        raise Stop(f"{path} cannot be read: {fault.strerror}") from None
    try:
        text = data.decode("utf-8-sig")  # without the byte-order mark, if there is one
    except UnicodeDecodeError:
        text = data.decode("latin-1")
    try:
        rows = list(csv.reader(io.StringIO(text, newline=""), strict=True))
    except csv.Error as fault:
        raise Stop(f"{path} is no CSV file: {fault}") from None
    if not rows:
        raise Stop(f"{path} is empty")
    columns = [name.strip() for name in rows[0]]
    for name in NEEDED:
        if name not in columns:
            raise Stop(f"{path} has no column {name}")
    for name in columns:
        if name and columns.count(name) > 1:
            raise Stop(f"{path} has the column {name} more than once")
    return columns, list(enumerate(rows[1:], start=2))


def read_matches(path, table, names):
    """The rows of a table that are matches. `names` has all names so far."""
    columns, rows = table
    for row, fields in rows:
        fields = [field.strip() for field in fields]
        if not any(fields):
            continue
        where = f"{path} row {row}"
        if any(fields[len(columns):]):
            note(f"{where}: left out, it has more cells than the header has names")
            continue
        fields += [""] * (len(columns) - len(fields))
        cells = {name: field for name, field in zip(columns, fields) if name}
        missing = [name for name in NEEDED if not cells[name]]
        date = iso_date(cells["Date"])
        if missing or date is None:
            note(f"{where} column {(missing or ['Date'])[0]}: row left out, "
                 + ("the cell is empty" if missing else f"no date: {cells['Date']}"))
            continue
        name = new_name(date, cells["HomeTeam"], cells["AwayTeam"], names)
        if names[name] > 1:
            note(f"{where}: another match of this date and these teams; it is named {name}")
        yield Match(path, row, name, date, cells["HomeTeam"], cells["AwayTeam"], cells)


def iso_date(text):
    """A date dd/mm/yyyy, dd/mm/yy or yyyy-mm-dd, as the last; None if it is none."""
    found = re.fullmatch("([0-9]{1,2})/([0-9]{1,2})/([0-9]{2}|[0-9]{4})", text)
    if found:
        day, month, year = found.groups()
        if len(year) == 2:  # the data begin in 1993
            year = ("19" if year >= "90" else "20") + year
    else:
        found = re.fullmatch("([0-9]{4})-([0-9]{2})-([0-9]{2})", text)
        if not found:
            return None
        year, month, day = found.groups()
    try:
        return datetime.date(int(year), int(month), int(day)).isoformat()
    except ValueError:
        return None


def ascii_word(text, most):
    """The letters and digits of a text, without accents, at most so many."""
    plain = unicodedata.normalize("NFKD", text).encode("ascii", "ignore").decode("ascii")
    return re.sub("[^A-Za-z0-9]", "", plain)[:most] or "x"


def new_name(date, home, away, names):
    """A name for a match, of at most 32 bytes, that no match before it has."""
    stem = f"{date.replace('-', '')}-{ascii_word(home, 11)}-{ascii_word(away, 11)}"
    name, number = stem, 1
    while name in names:
        number += 1
        name = f"{stem[:31 - len(str(number))]}.{number}"
    names[name] = number
    return name


# ---------------------------------------------------------------------------
# Which books and markets a file has


def markets_of(columns):
    """For each prefix the markets of which it has columns, with these endings."""
    found = {}
    for column in columns:
        for market, endings in MARKETS.items():
            for ending in endings:
                prefix = column.removesuffix(ending)
                if prefix != column and NAME.fullmatch(prefix):
                    found.setdefault(prefix, {}).setdefault(market, []).append(ending)
    for prefix, markets in found.items():
        # Statistics too have columns that end in H or A, such as HTA or B365AH.
        if len(markets.get("1x2", "xx")) < 2 or prefix.endswith("AH"):
            markets.pop("1x2", None)
    return {prefix: markets for prefix, markets in found.items() if markets}


def books_of(columns, closing):
    """The books of a table, each with its columns by what they quote."""
    found = markets_of(columns)
    openers = set(found) | ({"P", "PS"} if {"P", "PS"} & set(found) else set())
    books = {}
    for prefix, markets in found.items():
        is_closing = prefix.endswith("C") and prefix[:-1] in openers
        if is_closing != closing:
            continue
        book = prefix[:-1] if closing else prefix
        if book == "P" and "1x2" not in markets:
            book = "PS"
        for market, endings in markets.items():
            books.setdefault(book, {}).setdefault(market, []).extend(
                (ending, prefix + ending) for ending in endings)
    return books


def all_books(tables, closing):
    """The books of all tables, in the order of their columns."""
    books = {}
    for columns, _ in tables:
        for book, markets in books_of(columns, closing).items():
            books.setdefault(book, set()).update(markets)
    return books


def list_books(paths, tables):
    for path, (columns, rows) in zip(paths, tables):
        count = sum(any(field.strip() for field in fields) for _, fields in rows)
        print(f"{path}: {count} rows")
        for book in dict.fromkeys([*books_of(columns, False), *books_of(columns, True)]):
            line = f"  {book:<6}"
            for word, closing in (("", False), ("closing: ", True)):
                markets = books_of(columns, closing).get(book, {})
                if markets:
                    line += "  " + word + ", ".join(name for name in MARKETS if name in markets)
            print(line + ("  (no book: of several)" if book in NO_BOOKS else ""))


def known_as(book, books):
    """P is PS, unless it is a book of its own."""
    return "PS" if book == "P" and "P" not in books else book


def chosen_books(tables, words, closing):
    """The books that are asked for: all, if none is named."""
    known = all_books(tables, closing)
    if not known:
        raise Stop("no book has columns here" + (" with closing odds" if closing else ""))
    books = [book for book in known if book not in NO_BOOKS]
    if words is not None:
        books = [known_as(book, known) for book in words.split(",")]
    for book in books:
        if book not in known:
            raise Stop(f"no file has the book {book}; --list names those that are there")
        if books.count(book) > 1:
            raise Stop(f"the book {book} is named twice")
    if not 1 <= len(books) <= MOST_FEEDS:
        raise Stop(f"there are {len(books)} books; choose 1 to {MOST_FEEDS} with --books: "
                   + ",".join(books))
    return books


# ---------------------------------------------------------------------------
# Cells


def thousandths(text):
    """Odds in thousandths, and why there are none."""
    if text == "":
        return None, "empty"
    if not re.fullmatch("[0-9]+(\\.[0-9]+)?", text):
        return None, f"no number: {text}"
    whole, _, decimals = text.partition(".")
    if decimals[3:].strip("0"):
        return None, f"more than three decimals: {text}"
    value = int(whole[-9:]) * 1000 + int((decimals + "000")[:3])
    if len(whole.lstrip("0")) > 4 or not 1_001 <= value <= 1_000_000:
        return None, f"out of range, 1.001 to 1000: {text}"
    return value, None


def quarter_line(text):
    """A handicap as a feed has it, and why there is none."""
    if text == "":
        return None, "empty"
    found = re.fullmatch("([+-]?)0*([0-9]+)(?:\\.([0-9]+))?", text)
    if not found:
        return None, f"no number: {text}"
    sign, whole, decimals = found.groups()
    decimals = (decimals or "").rstrip("0")
    if decimals not in ("", "25", "5", "75"):
        return None, f"no line of quarter goals: {text}"
    if len(whole) > 1 or int(whole) * 100 + int((decimals + "00")[:2]) > 500:
        return None, f"out of range, -5 to 5: {text}"
    value = f"{whole}.{(decimals + '00')[:2]}"
    return ("-" if sign == "-" and value != "0.00" else "") + value, None


class Quotes:
    """Reads the quotes of rows, and counts what is left out."""

    def __init__(self, limit, closing):
        self.limit, self.line_column = limit, "AHCh" if closing else "AHh"
        self.left_out = 0

    def leave_out(self, match, column, why):
        self.left_out += 1
        note(f"{match.file} row {match.row} column {column}: left out, {why}")

    def of(self, match, markets):
        """The quote lines of one book on one match."""
        lines = []
        for market in MARKETS:
            line = None
            if market == "handicaps" and market in markets:
                line, why = quarter_line(match.cells.get(self.line_column, ""))
                if line is None:
                    columns = ", ".join(column for _, column in markets[market])
                    self.leave_out(match, self.line_column, f"{why}; so are {columns}")
                    continue
            for ending, column in markets.get(market, ()):
                odds, why = thousandths(match.cells[column])
                if odds is None:
                    self.leave_out(match, column, why)
                    continue
                selection = SIDES[ending].format(line)
                lines.append(f"quote {match.name} {selection} {odds // 1000}.{odds % 1000:03} "
                             f"{self.limit}")
        return lines


# ---------------------------------------------------------------------------
# Writing the folder


def feeds_of(matches, books, tables, rules, quotes):
    """The lines of each book's feed, for these matches."""
    feeds = {book: [f"feed 1 {book} {rules.get(book, 'void')}"] for book in books}
    for match in matches:
        for book, lines in feeds.items():
            lines += quotes.of(match, tables[match.file].get(book, {}))
    return feeds


def refuse_strangers(folder, files):
    """Feeds of another run would be read with these, so they are not passed over."""
    for place, _, names in os.walk(folder):
        for name in names:
            path = os.path.join(place, name)
            if name.endswith(".feed") and os.path.relpath(path, folder) not in files:
                raise Stop(f"{path} is of another run; name a new folder, or empty this one")


def write_folder(folder, files):
    refuse_strangers(folder, files)
    try:
        for name, text in files.items():
            path = os.path.join(folder, name)
            os.makedirs(os.path.dirname(path), exist_ok=True)
            with open(path, "w", encoding="utf-8", newline="") as file:
                file.write(text)
    except OSError as fault:
        raise Stop(f"{folder} cannot be written: {fault}") from None


def table_of_names(matches, sets):
    text = io.StringIO()
    writer = csv.writer(text, lineterminator="\n")
    writer.writerow(["match", "date", "home", "away", "file", "row", "set"])
    for number, match in enumerate(matches):
        writer.writerow([match.name, match.date, match.home, match.away,
                         os.path.basename(match.file), match.row,
                         number // MATCHES_OF_A_FEED + 1 if sets > 1 else ""])
    return text.getvalue()


def warn_of_columns(paths, tables, books, closing):
    """Says which columns of the chosen books are not there."""
    line_column = "AHCh" if closing else "AHh"
    for path, (columns, _) in zip(paths, tables):
        there = books_of(columns, closing)
        for book in books:
            for market, found in there.get(book, {}).items():
                for ending in MARKETS[market]:
                    if ending not in [each for each, _ in found]:
                        note(f"{path}: {book} has no column of {market} that ends in {ending}")
                if market == "handicaps" and line_column not in columns:
                    note(f"{path} has no column {line_column}: no handicaps of {book}")
            if book not in there:
                note(f"{path} has no column of {book}")


def rules_of(words, books):
    rules = {}
    for word in words:
        book, _, rule = word.partition("=")
        book = known_as(book, books)
        if rule not in RULES:
            raise Stop(f"--rule {word}: it is BOOK=void, BOOK=score or BOOK=decided")
        if book not in books:
            raise Stop(f"--rule {word}: {book} is none of the books {','.join(books)}")
        rules[book] = rule
    return rules


def make_feeds(options, paths, tables):
    books = chosen_books(tables, options.books, options.closing)
    rules = rules_of(options.rule, books)
    names, matches, columns_by_file = {}, [], {}
    warn_of_columns(paths, tables, books, options.closing)
    for path, table in zip(paths, tables):
        matches += read_matches(path, table, names)
        there = books_of(table[0], options.closing)
        for markets in there.values():
            if ("AHCh" if options.closing else "AHh") not in table[0]:
                markets.pop("handicaps", None)
        columns_by_file[path] = there
    sets = -(-len(matches) // MATCHES_OF_A_FEED) or 1
    quotes, files, count = Quotes(options.limit, options.closing), {}, dict.fromkeys(books, 0)
    for number in range(sets):
        some = matches[number * MATCHES_OF_A_FEED:(number + 1) * MATCHES_OF_A_FEED]
        for book, lines in feeds_of(some, books, columns_by_file, rules, quotes).items():
            name = f"{book}.feed" if sets == 1 else os.path.join(f"set-{number + 1}", f"{book}.feed")
            files[name] = "\n".join(lines) + "\n"
            count[book] += len(lines) - 1
    files["names.csv"] = table_of_names(matches, sets)
    write_folder(options.out, files)
    print(f"{len(matches)} matches, {len(books)} books, {quotes.left_out} cells left out")
    if sets > 1:
        print(f"more than {MATCHES_OF_A_FEED} matches: spread over set-1 to set-{sets}")
    for book in books:
        print(f"{book}: {count[book]} quotes, rule {rules.get(book, 'void')}")


def main():
    parser = argparse.ArgumentParser(
        description=__doc__, formatter_class=argparse.RawDescriptionHelpFormatter)
    parser.add_argument("files", nargs="+", metavar="FILE", help="a CSV file")
    parser.add_argument("--list", action="store_true", help="say which books and markets are there")
    parser.add_argument("--out", metavar="FOLDER", help="the folder for the feeds")
    parser.add_argument("--books", metavar="A,B,..", help="at most eight prefixes; all if not given")
    parser.add_argument("--rule", action="append", default=[], metavar="BOOK=RULE",
                        help="void (if not given), score or decided: what the book does with "
                             "abandoned matches")
    parser.add_argument("--limit", type=int, default=10_000, metavar="N",
                        help="the most that may be staked on a quote, in minor units; 10000 if "
                             "not given, since the data have no limits")
    parser.add_argument("--closing", action="store_true", help="take the closing odds")
    options = parser.parse_args()
    if not options.list and options.out is None:
        parser.error("name a folder with --out, or ask with --list")
    if not 1 <= options.limit <= 100_000_000:
        parser.error("--limit is from 1 to 100000000")
    try:
        paths = list(dict.fromkeys(options.files))
        tables = [read_table(path) for path in paths]
        if options.list:
            list_books(paths, tables)
        else:
            make_feeds(options, paths, tables)
    except Stop as why:
        note(f"error: {why}")
        return 2
    return 0


if __name__ == "__main__":
    sys.exit(main())
