#!/usr/bin/env python3
"""usage: examples.py PROGRAM

Runs every example of the documents with the built program, at the top of the repository, and compares what it prints
and its status with what the document shows.

An example is in an indented block. A line '$ ./sagbi WORD ..' has all that the command prints in the lines behind it:
those that begin with 'error: ' are on standard error, and the others on standard output. A line '$ echo $?' behind them
has the status in the next line; without it the status is 0. A line '$ cat FILE' has the file in the lines behind it.
The last line is 'examples: N passed, M failed'; the status is 1 if one failed, or if there was none.
"""
import glob
import os
import shlex
import subprocess
import sys

INDENT = "    "
PROMPT = INDENT + "$ "
STATUS = "echo $?"


def steps(path):
    """The number of the line of each command of a document, the command, and the lines that are shown behind it."""
    found = []
    is_behind = False
    with open(path, encoding="utf-8") as document:
        for number, line in enumerate(document, 1):
            if line.startswith(PROMPT):
                found.append((number, line[len(PROMPT):].strip(), []))
                is_behind = True
            elif is_behind and line.startswith(INDENT):
                found[-1][2].append(line[len(INDENT):])
            else:
                is_behind = False
    return found


def wanted_of(shown, status):
    """The status and what should be on standard output and on standard error."""
    error = [line for line in shown if line.startswith("error: ")]
    output = [line for line in shown if line not in error]
    return status, "".join(output), "".join(error)


def run(program, words):
    done = subprocess.run([program, *words], stdin=subprocess.DEVNULL, capture_output=True, timeout=300)
    return done.returncode, done.stdout.decode(), done.stderr.decode()


def contents(name):
    with open(name, encoding="utf-8") as file:
        return file.read()


def status_behind(found, index):
    """The status that the next command of the document shows, if that is what it is for."""
    if index + 1 < len(found) and found[index + 1][1] == STATUS:
        return int("".join(found[index + 1][2]))
    return 0


def cases(program, path):
    """The place of each example of a document, what the command gives, and what the document shows."""
    found = steps(path)
    for index, (number, command, shown) in enumerate(found):
        words = shlex.split(command)
        place = "%s:%d: %s" % (path, number, command)
        if words[0] == "./sagbi":
            yield place, run(program, words[1:]), wanted_of(shown, status_behind(found, index))
        elif words[0] == "cat" and len(words) == 2:
            yield place, contents(words[1]), "".join(shown)
        elif command != STATUS or index == 0 or not found[index - 1][1].startswith("./sagbi "):
            yield place, "a command that no example may have", ""


def main():
    program = os.path.abspath(sys.argv[1])
    os.chdir(os.path.join(os.path.dirname(os.path.abspath(__file__)), ".."))
    folders = (".", "samples", "docs", "docs/*", "crates/*")
    passed = failed = 0
    for path in sorted(path for folder in folders for path in glob.glob(folder + "/*.md")):
        for place, found, wanted in cases(program, os.path.normpath(path)):
            if found == wanted:
                passed += 1
            else:
                failed += 1
                print("examples: %s\n  gives  %r\n  wanted %r" % (place, found, wanted))
    print("examples: %d passed, %d failed" % (passed, failed))
    return 1 if failed or not passed else 0


if __name__ == "__main__":
    sys.exit(main())
