#!/usr/bin/env python3
"""usage: runs.py PROGRAM

Runs the built program on real files and streams, and compares its standard output, its standard error and its
status with what was found by hand. The last line is 'runs: N passed, M failed'; the status is 1 if one failed.
"""
import os
import subprocess
import sys
import tempfile

TEXT_MAX = 16777216
USAGE = "error: usage\n"
SHELF = "error: shelf\n"


def presentation(generators, ideal=(), field=101, names="x y", weights="1 1", order="lex"):
    """A presentation with a line for each list and each polynomial."""
    head = "subalgebra 1\nfield %s\nvars %s\nweights %s\norder %s\n" % (field, names, weights, order)
    lists = "".join("%s %d\n%s" % (word, len(list_), "".join(p + "\n" for p in list_))
                    for word, list_ in (("ideal", ideal), ("generators", generators)))
    return head + lists + "end\n"


def report(bound, *elements, mark="complete"):
    """A report on elements, each its degree, its lead, and its text if that is not the lead."""
    lines = "".join("%d %d %s : %s\n" % (i + 1, element[0], element[1], element[-1])
                    for i, element in enumerate(elements))
    return "report 1\nbound %d\nbasis %d\n%smark %s\nend\n" % (bound, len(elements), lines, mark)


PLANE = presentation(["x^2", "x*y"])
SUMS = presentation(["x + y", "x*y"])
# no power of y is a lead, but each product of x and a power of y is
ENDLESS = presentation(["x + y", "x*y", "x*y^2"])
# modulo the difference of two squares, and modulo a square
FOLDED = presentation(["x + y"], ideal=["x^2 - y^2"])
DOUBLED = presentation(["y + x"], ideal=["x^2"], names="y x")
PLANE_4 = report(4, (2, "x*y"), (2, "x^2"))
X_2 = report(2, (1, "x"))
VARIABLES_32 = ["x%d" % (i + 1) for i in range(32)]
NAMES_32 = " ".join(VARIABLES_32)
ONES_32 = " ".join(["1"] * 32)
BLANKS = ("# M\n\n subalgebra\t1\nfield 0101\r\nvars  x y\nweights 1 01\norder lex\nideal 0\n"
          "generators 3\n101*x\n + x * x\n-100*y*x^1\n\nend")

# the text of the file P, the bound, and the report
REPORTS = [
    (PLANE, 4, PLANE_4),
    (PLANE, 1, report(1, mark="open")),
    (presentation(["x^2", "x*y", "x^3*y", "x*y"]), 4, PLANE_4),
    (presentation([], names="x", weights="1"), 2, report(2)),
    (presentation(["0"], names="x", weights="1"), 2, report(2)),
    # at degree 4, y^2 times x^2 is the square of x*y
    (BLANKS, 3, report(3, (2, "x*y"), (2, "x^2"), mark="open")),
    (BLANKS, 4, PLANE_4),
    # each field, with its own zero
    (presentation(["3*x + 2*y", "2*x"], field=2), 2, X_2),
    (presentation(["x - 2*x + 2*x"], field=3), 2, X_2),
    (presentation(["65522*x"], field=65521), 2, X_2),
    (presentation(["32003*x + y"], field=32003), 2, report(2, (1, "y"))),
    # over pairs (0, 1) is 2, 3 or 7; in the field of 4 it times (1, 1) is 1, and in the others its square is -1
    (presentation(["2*3*x + 4*y"], field=4), 2, X_2),
    (presentation(["3*3*3*3*x + 9*y"], field=9), 2, X_2),
    (presentation(["7*7*7*7*y - 49*x"], field=49), 2, report(2, (1, "y"))),
    (presentation(["2*x"], field=4), 2, X_2),
    (presentation(["x + 2*y", "x^2 + 3*y^2"], field=4), 2, report(2, (1, "x", "x + 2*y"))),
    (presentation(["3*x + y"], field=9), 1, report(1, (1, "x", "x + 6*y"))),
    (presentation(["7*x + y"], field=49), 1, report(1, (1, "x", "x + 42*y"))),
    # x has the degree 2
    (presentation(["x", "y"], field=5, weights="2 1"), 2, report(2, (1, "y"), (2, "x"))),
    # a row that puts y above x
    (presentation(["x", "y"], field=7, order="0 1 ; lex"), 2, report(2, (1, "x"), (1, "y"))),
    # x*z is below y^2 in reverse lex, and above it in lex
    (presentation(["y^2", "x*z"], names="x y z", weights="1 1 1", order="revlex"), 2,
     report(2, (2, "x*z"), (2, "y^2"))),
    (presentation(["y^2", "x*z"], names="x y z", weights="1 1 1"), 2, report(2, (2, "y^2"), (2, "x*z"))),
    # no power of y but the cube, so x*y^2 is needed; y times x*y^2 is x times y^3, of degree 4
    (presentation(["x*y^2", "x", "y^3"]), 3, report(3, (1, "x"), (3, "y^3"), (3, "x*y^2"), mark="open")),
    (presentation(["y", "y", "x", "y"]), 1, report(1, (1, "y"), (1, "x"))),
    # x^2*y^2 is x^2 times y^2 and the square of x*y
    (presentation(["x^2", "x*y", "y^2", "x^2*y^2"]), 4, report(4, (2, "y^2"), (2, "x*y"), (2, "x^2"))),
    (presentation(["x^3", "y^5"]), 2, report(2, mark="open")),
    (presentation(["x^3", "x^2", "x^30000"], names="x", weights="1"), 15000,
     report(15000, (2, "x^2"), (3, "x^3"), mark="open")),
    # a*b*c is no product of a*b and b*c, and c^4 is above the bound
    (presentation(["a*b", "b*c", "a*b*c", "c^4"], names="a b c", weights="1 1 1"), 3,
     report(3, (2, "b*c"), (2, "a*b"), (3, "a*b*c"), mark="open")),
    # 10 = 4 + 6, 13 = 4 + 9, 15 = 6 + 9; 18 = 6 + 6 + 6 = 9 + 9 is above the bound
    (presentation(["t^4", "t^6", "t^9", "t^10", "t^13", "t^15"], names="t", weights="1"), 15,
     report(15, (4, "t^4"), (6, "t^6"), (9, "t^9"), mark="open")),
    # the first variable is the greatest
    (presentation(["x", "y", "y*x"], names="y x"), 2, report(2, (1, "x"), (1, "y"))),
    (presentation(["x1*x32", "x32", "x31^2", "x1"], names=NAMES_32, weights=ONES_32), 2,
     report(2, (1, "x32"), (1, "x1"), (2, "x31^2"))),
    (presentation(["long_name_1^200*b^7", "long_name_1^100", "b^7"], names="long_name_1 b"), 300,
     report(300, (7, "b^7"), (100, "long_name_1^100"))),
    # elements are monic, and no lead is in another element of the degree
    (presentation(["2*x + 4*y"], field=7), 1, report(1, (1, "x", "x + 2*y"))),
    (presentation(["x^2 + x*y", "x*y + y^2"]), 4, report(4, (2, "x*y", "x*y + y^2"), (2, "x^2", "x^2 + 100*y^2"))),
    (SUMS, 1, report(1, (1, "x", "x + y"), mark="open")),
    (SUMS, 15000, report(15000, (1, "x", "x + y"), (2, "x*y"))),
    (presentation(["x + y", "x*y"], ideal=["0"]), 2, report(2, (1, "x", "x + y"), (2, "x*y"))),
    (ENDLESS, 7, report(7, (1, "x", "x + y"), (2, "x*y"), *((k + 1, "x*y^%d" % k) for k in range(2, 7)), mark="open")),
    (presentation(["x"], ideal=["x^2"], field=7), 1, report(1, (1, "x"), mark="open")),
    (presentation(["x"], ideal=["x^2"], field=7), 2, X_2),
    # more than 15,000,000,000 products of generators have the degree 12
    (presentation([*VARIABLES_32, "x1^12 + x32^12"], names=NAMES_32, weights=ONES_32), 12,
     report(12, *((1, x) for x in reversed(VARIABLES_32)))),
]

# the text of the file P, the bound, and the relations
RELATIONS = [
    (PLANE, 4, []),
    (ENDLESS, 4, ["s1*s3 = s2^2 + s4"]),
    (presentation(["x"], ideal=["x^2"], field=7), 2, ["s1^2 = 0"]),
    # the Veronese surface's curve: y^2, x*y and x^2
    (presentation(["x^2", "x*y", "y^2"]), 3, []),
    (presentation(["x^2", "x*y", "y^2"]), 4, ["s1*s3 = s2^2"]),
    # the twisted cubic: y^3, x*y^2, x^2*y and x^3
    (presentation(["x^3", "x^2*y", "x*y^2", "y^3"]), 6, ["s2*s4 = s3^2", "s1*s4 = s2*s3", "s1*s3 = s2^2"]),
]

# the text of the file P, the bound, that of the file Q, and the answers; each member can be written in one way alone
ANSWERS = [
    (SUMS, 3, "", []),
    (SUMS, 3, "x^3 + y^3\nx\n7\n0\nx + y + x^2\n",
     ["member g1^3 + 98*g1*g2", "no 100*y", "member 7", "member 0", "no 100*y^2"]),
    # skipped lines, blanks, and a last line without its end; of three parts, each a member
    (SUMS, 3, "# A\n\n x*y +\tx + y+5\r\n\t\n101", ["member g2 + g1 + 5", "member 0"]),
    # above the bound, in a report that is complete, and in one that is open
    (SUMS, 2, "x*y^4\nx^3*y^2 + x^2*y^3\n", ["no x*y^4", "member g1*g2^2"]),
    (SUMS, 1, "x + y\nx*y\nx^30000\n", ["member g1", "beyond 2", "beyond 30000"]),
    (ENDLESS, 4, "x*y^3\nx*y^4\nx^3*y^2 + x^2*y^3\nx^5 - x^5 + y^2\n",
     ["member g1*g3 + 100*g2^2", "beyond 5", "beyond 5", "no y^2"]),
    # x^4 - y^4 is zero modulo the ideal, but its degree is above the bound
    (FOLDED, 3, "x^2 - y^2\nx*y + y^2\nx*y\nx^4 - y^4\n", ["member 0", "member 51*g1^2", "no 100*y^2", "beyond 4"]),
    (DOUBLED, 2, "y^2 + 2*y*x\ny^2\ny^3 + 3*y^2*x + y*x^2\n", ["member g1^2", "no 99*y*x", "member g1^3"]),
    # 2 times 2 is 3 in the field of 4, and minus is plus; 3 times 6 is 1 in that of 9, and 7 times 42 in that of 49
    (presentation(["x + 2*y"], field=4), 1, "2*x + 3*y\nx\n", ["member 2*g1", "no 2*y"]),
    (presentation(["3*x + y"], field=9), 1, "x + 6*y\n", ["member 6*g1"]),
    (presentation(["7*x + y"], field=49), 1, "x + 42*y\ny\n", ["member 42*g1", "no y"]),
    (presentation([], names="x", weights="1"), 1, "3\nx^2\n", ["member 3", "no x^2"]),
    # a text of the greatest length
    (SUMS, 1, "0" + " " * (TEXT_MAX - 1), ["member 0"]),
]


def fault(line, kind):
    return "error: presentation line %d: %s\n" % (line, kind)


def query_fault(line, kind):
    return "error: query line %d: %s\n" % (line, kind)


# the text of the file P, the status, and the line of `complete P 2`
REFUSALS = [
    ("", 2, fault(1, "Truncated")),
    (SUMS + "x\n", 2, fault(11, "TextAfterEnd")),
    (presentation(["x + y^2", "x*y"]), 2, fault(8, "NotHomogeneous")),
    (presentation(["x + y", "x*y"], ideal=["3"]), 2, fault(7, "UnitIdeal")),
    (presentation(["x^30000*y^$"]), 2, fault(8, "PolySyntax")),
    (presentation(["x^30000*y^1234567890123456789"]), 2, fault(8, "NumberTooLong")),
    (presentation(["x^30000*y $"]), 2, fault(8, "DegreeTooLarge")),
    (SUMS.replace("end\n", ""), 2, fault(10, "Truncated")),
    (" " * TEXT_MAX, 2, fault(2, "Truncated")),
    (" " * (TEXT_MAX + 1), 9, "error: too long P\n"),
    (presentation(["x"], field=25), 2, fault(2, "FieldUnknown")),
]

# the text of the file Q, the status, and the line of `ask P 2 Q` over SUMS
QUERY_REFUSALS = [
    ("x\nx +\nw\n", 4, query_fault(2, "PolySyntax")),
    ("w\n", 4, query_fault(1, "UnknownName")),
    ("x^30001\n", 4, query_fault(1, "DegreeTooLarge")),
    ("# w\n\nx*1234567890123456789", 4, query_fault(3, "NumberTooLong")),
    ("end\n", 4, query_fault(1, "UnknownName")),
    ("x y", 4, query_fault(1, "PolySyntax")),
    (" " * (TEXT_MAX + 1), 9, "error: too long Q\n"),
]

# words that are no command, whatever the files are
NO_COMMANDS = [
    "", "complete", "complete P", "complete P 0", "complete P 02", "complete P +2", "complete P -2",
    "complete P 15001", "complete P 99999999999999999999", "complete P x", "complete P 2 2", "complete P 2 LAST",
    "complete P last", "complete P last 2", "complete P 2 last last", "complete P 2 Q", "complete P 2 Q last",
    "completes P 2", "Complete P 2",
    "ask", "ask P", "ask P 2", "ask P 2 Q last", "ask P 2 Q Q", "ask P 0 Q", "ask P 02 Q", "ask P 15001 Q",
    "ask P Q 2", "ask P 2 P", "ask Q 2 Q", "ask Z 2 Z",
    "relations", "relations P", "relations P 0", "relations P 15001", "relations P 2 last", "relations P 2 Q",
    "trial", "trial 0", "trial 9", "trial 04", "trial +4", "trial 4 last", "trial P", "trial 4 2", "trials 4",
    "help", "--help",
]

# other words with the files PLANE and Q, the status, and the line
COMMANDS = [
    (["complete", "", "4"], 1, USAGE),
    (["ask", "", "4", "Q"], 1, USAGE),
    (["ask", "P", "4", ""], 1, USAGE),
    (["relations", "", "4"], 1, USAGE),
    (["trial", ""], 1, USAGE),
    (["trial", " 4"], 1, USAGE),
    (["complete", "P", "2 "], 1, USAGE),
    # a word that is no text
    ([b"complete", b"P", b"2\xff"], 1, USAGE),
    (["complete", "Z", "2"], 8, "error: missing Z\n"),
    (["complete", "last", "2", "last"], 8, "error: missing last\n"),
    (["relations", "Z", "2"], 8, "error: missing Z\n"),
    (["ask", "Z", "2", "Q"], 8, "error: missing Z\n"),
    (["ask", "P", "2", "Z"], 8, "error: missing Z\n"),
    (["ask", "Y", "2", "Z"], 8, "error: missing Y\n"),
    # Q is no presentation, and that comes before the queries
    (["ask", "Q", "2", "Z"], 2, fault(1, "Header")),
    # a folder, and a name below a file
    (["complete", ".", "2"], 5, SHELF),
    (["complete", "P/Q", "2"], 5, SHELF),
    (["relations", ".", "2"], 5, SHELF),
    (["ask", ".", "2", "Z"], 5, SHELF),
    (["ask", "P", "2", "."], 5, SHELF),
    (["ask", "P", "2", "P/Q"], 5, SHELF),
]

# words with the files PLANE and Q that print something
PRINTING = ["complete P 4", "complete P 4 last", "ask P 4 Q", "relations P 4", "trial 1"]


def run(program, files, words, out=subprocess.PIPE):
    """What the program puts and answers, in a new folder with these files, which it must leave as they are."""
    with tempfile.TemporaryDirectory() as folder:
        for name, text in files.items():
            with open(os.path.join(folder, name), "w", newline="") as file:
                file.write(text)
        done = subprocess.run([program, *words], cwd=folder, stdin=subprocess.DEVNULL, stdout=out,
                              stderr=subprocess.PIPE, timeout=120)
        left = {}
        for name in os.listdir(folder):
            with open(os.path.join(folder, name), newline="") as file:
                left[name] = file.read()
    return (done.returncode, (done.stdout or b"").decode(), done.stderr.decode(),
            "" if left == files else "files changed")


def lines_of(lines):
    return "".join(line + "\n" for line in lines)


def outputs():
    """The files, the words and the output of each run that prints what it should."""
    for text, bound, expected in REPORTS:
        # the candidates of a degree may be taken in any order
        for more in ([], ["last"]):
            yield {"P": text}, ["complete", "P", str(bound), *more], expected
    for text, bound, relations in RELATIONS:
        yield {"P": text}, ["relations", "P", str(bound)], lines_of(["relations %d" % len(relations), *relations])
    for text, bound, queries, answers in ANSWERS:
        yield {"P": text, "Q": queries}, ["ask", "P", str(bound), "Q"], lines_of(answers)
    for n in range(1, 5):
        # the elementary symmetric polynomials in n + 2 variables
        yield {}, ["trial", str(n)], "trial %d\nbound %d\nbasis %d\nmark complete\nend\n" % (n, n + 2, n + 2)


def refusals():
    """The files, the words, the status and the line of each run that is refused."""
    for text, status, line in REFUSALS:
        yield {"P": text}, ["complete", "P", "2"], status, line
        yield {"P": text, "Q": "0\n"}, ["ask", "P", "2", "Q"], status, line
        yield {"P": text}, ["relations", "P", "2"], status, line
    for text, status, line in QUERY_REFUSALS:
        yield {"P": SUMS, "Q": text}, ["ask", "P", "2", "Q"], status, line
    files = {"P": PLANE, "Q": "x^2\n"}
    for words in NO_COMMANDS:
        yield files, words.split(), 1, USAGE
    for words, status, line in COMMANDS:
        yield files, words, status, line


def cases(program):
    """Each case's name, what it gives, and what it should give."""
    for files, words, expected in outputs():
        yield (words, files), run(program, files, words), (0, expected, "", "")
    for files, words, status, line in refusals():
        yield (words, files), run(program, files, words), (status, "", line, "")
    if os.path.exists("/dev/full"):
        files = {"P": PLANE, "Q": "x^2\n"}
        for words in PRINTING:
            with open("/dev/full", "wb") as full:
                yield (words, "/dev/full"), run(program, files, words.split(), full), (6, "", "error: sink\n", "")


def main():
    program = os.path.abspath(sys.argv[1])
    passed = failed = 0
    for name, found, wanted in cases(program):
        if found == wanted:
            passed += 1
        else:
            failed += 1
            print(("runs: %r\n  gives  %r\n  wanted %r" % (name, found, wanted))[:2000])
    print("runs: %d passed, %d failed" % (passed, failed))
    return 1 if failed else 0


if __name__ == "__main__":
    sys.exit(main())
