"""The files of desks: torn at each length, with CRLF, held by another desk, and such that can't be had."""

import fcntl
import os
import subprocess

import cases
from refusals import FOLDER, said_of
from runs import SECONDS

FOOBAR = ["desk", *cases.options(cases.archive("foobar"))]
LOCKED = said_of("journal", "Locked")
UNREAD = said_of("journal", "cannot read")
ROWS = b"rows\n"
# A line that a desk is about to add to the file of `torn-end`, and an undo.
LATER = (b"2 claim=1 foo/i386\n", b"2 nmu bar/amd64 ;16 libbar-dev (>= 2) : it is $5\n", b"undo 1\n")


def fronts(line):
    """Each front of a line that lacks its newline at least, and every fourth with zero bytes after it, one
    or as many as the line still had."""
    for length in range(len(line)):
        yield line[:length]
        if length % 4 == 0:
            yield line[:length] + bytes(1 if length % 8 else len(line) - length)


def torn(runs, name, whole, line):
    """A file that ends in each front of a line opens as the one of the case, and is left as that is."""
    case = cases.Case("desk", name)
    for front in fronts(line):
        file = runs.put("torn", whole + front)
        found = runs.end([*FOOBAR, f"--journal={file}"], case.input())
        runs.compare(f"{name} of {front}", found, *case.wanted())
        if cases.read(file) != case.read("kept"):
            runs.differs(f"{name} of {front}: its file")


def torn_ends(runs):
    """Each front of a line after whole ones, and each front of the header."""
    header, *lines = cases.Case("desk", "torn-end").read("kept").splitlines(keepends=True)
    for line in LATER:
        torn(runs, "torn-end", header + lines[0], line)
    torn(runs, "torn-header", b"", header)


def cut_headers(runs):
    """Bytes without a newline that aren't those of a new file are no header, and stay as they are: a
    byte that the header doesn't have there, after a zero byte too."""
    header = cases.Case("desk", "torn-header").read("kept")[:-1]
    said = said_of("journal", "BadHeader")
    for length in (0, 1, 18, len(header) - 1, len(header)):
        for more in (b"x", b"\r", b"\0x", b"\xff"):
            text = header[:length] + more
            file = runs.put("cut", text)
            found = runs.end([*FOOBAR, f"--journal={file}"], runs.put("rows", ROWS))
            runs.compare(f"a file of {text}", found, 2, stderr=said)
            if cases.read(file) != text:
                runs.differs(f"a file of {text}: it is touched")


def held(runs):
    """A file that another desk has: nothing is said of its text, and nothing is written. Another
    file's fault comes before."""
    texts = {case.name: case.read("journal") for case in cases.cases("desk") if case.has("journal")}
    texts["empty"] = b""
    script = runs.put("rows", ROWS)
    for name, text in texts.items():
        file = runs.put("held", text)
        with open(file, "rb") as other:
            fcntl.flock(other, fcntl.LOCK_EX)
            for more in ([], ["--explain"]):
                found = runs.end([*FOOBAR, f"--journal={file}", *more], script)
                runs.compare(f"a held file, {name} {more}", found, 5, stderr=LOCKED)
            state = runs.put("bad-state", "x\n")
            found = runs.end([*FOOBAR, f"--journal={file}", f"--state={state}", "--wait"], script)
            runs.compare(f"a held file, {name}, and a state", found, 2, stderr=said_of("state", "BadLine"))
        if cases.read(file) != text:
            runs.differs(f"a held file, {name}: it is touched")


def waited_for(runs):
    """With --wait a desk says nothing until the other lets go of the file, and then goes on from what
    that one has left."""
    for more in ([], ["--explain"]):
        file = runs.put("waited-for", cases.Case("desk", "torn-header").read("kept"))
        words = [runs.program, *FOOBAR, f"--journal={file}", "--wait", *more]
        pipes = {"stdin": subprocess.PIPE, "stdout": subprocess.PIPE, "stderr": subprocess.PIPE}
        with open(file, "r+b") as other:
            fcntl.flock(other, fcntl.LOCK_EX)
            with subprocess.Popen(words, **pipes) as desk:
                desk.stdin.write(b"row foo i386\n")
                desk.stdin.flush()
                try:
                    desk.wait(0.5)
                    runs.differs(f"a desk doesn't wait {more}")
                except subprocess.TimeoutExpired:
                    pass
                other.seek(0, os.SEEK_END)
                other.write(b"1 bp=7 foo/i386\n")
                other.flush()
                fcntl.flock(other, fcntl.LOCK_UN)
                said = desk.communicate(timeout=SECONDS)
        runs.compare(f"a desk that waits {more}", (desk.returncode, *said), 0, b"foo/i386 Installed 7 1\n")


def not_had(runs):
    """Paths that lead to no file that can be read and written. (run-streams asks as somebody who may
    not.)"""
    plain = runs.put("plain", b"")
    os.symlink("itself", f"{runs.room}/itself")
    script = runs.put("rows", ROWS)
    for path in (runs.room, "nowhere/desk", f"{plain}/desk", "itself", "0" * 300, ""):
        found = runs.end([*FOOBAR, f"--journal={path}"], script)
        runs.compare(f"{path[:20]} as a desk's file", found, 5, stderr=UNREAD)
        if path == runs.room:
            found = runs.end([*FOOBAR, f"--journal={path}", "--explain"], script)
            said = said_of("journal", "cannot read", f'journal: "{path}" {FOLDER}')
            runs.compare("a folder as a desk's file, explained", found, 5, stderr=said)
    if cases.read(plain) != b"" or os.path.exists(f"{runs.room}/nowhere"):
        runs.differs("what is no desk's file is touched")


def run_all(runs):
    for group in (torn_ends, cut_headers, held, waited_for, not_had):
        group(runs)
