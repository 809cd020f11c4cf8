"""Reports that the tests share, and how a program of tools/ is run in a test."""

import contextlib
import io
import os
import sys
import tempfile

HEAD = """arbscan report 1
pivots 4096
feed 0 alpha void lines 3 refused 0 end
feed 1 beta void lines 2 refused 0 end
"""


def report(finding, limit="100000", head=HEAD):
    """The match of docs/CHECKING.md with a finding."""
    return (head + "match m1 offers 3\n"
            f"offer 0 1x2 home 2.100 {limit}\noffer 0 1x2 away 4.500 {limit}\n"
            f"offer 1 1x2 draw 4.000 {limit}\nfinding {finding}\nend\n")


def level(finding):
    """The same match with odds of 3.000 on each result, all of one book."""
    return (HEAD + "match m1 offers 3\noffer 0 1x2 home 3.000 1000\noffer 0 1x2 draw 3.000 1000\n"
            f"offer 0 1x2 away 3.000 1000\nfinding {finding}\nend\n")


def totals(finding, rule="score"):
    """Over 2.5 at a book that voids, and under 2.5 at one of another rule."""
    return ("arbscan report 1\npivots 4096\nfeed 0 alpha void lines 2 refused 0 end\n"
            f"feed 1 beta {rule} lines 2 refused 0 end\nmatch m1 offers 2\n"
            "offer 0 total 2.50 over 2.100 10000\noffer 1 total 2.50 under 2.100 10000\n"
            f"finding {finding}\nend\n")


def run(main, *words):
    """Runs a program's main with these words: its status, output and messages."""
    out, err, kept = io.StringIO(), io.StringIO(), sys.argv
    sys.argv = ["program", *map(str, words)]
    try:
        with contextlib.redirect_stdout(out), contextlib.redirect_stderr(err):
            try:
                status = main()
            except SystemExit as end:
                status = end.code
    finally:
        sys.argv = kept
    return status, out.getvalue(), err.getvalue()


def run_on(main, text, *words):
    """The same on a file with this text."""
    with tempfile.TemporaryDirectory() as folder:
        path = os.path.join(folder, "file")
        with open(path, "wb") as file:
            file.write(text if isinstance(text, bytes) else text.encode("latin-1"))
        return run(main, path, *words)
