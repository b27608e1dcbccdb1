"""Runs of bin/next-desk: a desk for the day's new indices, from the desk of the day before.

The expected rows and lines are worked out by hand, from the manual page.
"""

import contextlib
import fcntl
import os
import shutil
import subprocess
import tempfile
import time

# What a run over 20,000 rows may take at most, in seconds: some 5 on a quiet machine, far more if it
# looked at each row for each row.
SECONDS = 300


def write(path, text):
    with open(path, "wb") as file:
        file.write(text if isinstance(text, bytes) else text.encode())


def read(path):
    """The text of a file; none if it isn't there."""
    with contextlib.suppress(FileNotFoundError):
        with open(path, encoding="utf-8") as file:
            return file.read()


def archive(folder, sources, built, archs=("amd64",), **files):
    """A folder of indices. `sources` has their versions, `built` the versions of what is built, by
    source or by key. `files` are more files of the folder, by their names."""
    os.makedirs(folder, exist_ok=True)
    table, packages, stanzas = "", "", ""
    for arch in archs:
        table += f"{arch} linux {arch}\n"
    for source, version in sources.items():
        stanzas += f"Package: {source}\nVersion: {version}\nArchitecture: any\n\n"
        for arch in archs:
            found = built.get(f"{source}/{arch}", built.get(source))
            if found:
                packages += f"Package: {source}-bin\nSource: {source} ({version})\n"
                packages += f"Version: {found}\nArchitecture: {arch}\n\n"
    for name, text in {"archs": table, "packages": packages, "sources": stanzas, **files}.items():
        write(f"{folder}/{name}", text)
    return folder


def desk(runs, folder, *lines):
    """The answers of a desk to these lines."""
    words = [runs.world["PROGRAM"], "desk", f"--folder={folder}"]
    given = "".join(f"{line}\n" for line in lines).encode()
    return subprocess.run(words, input=given, capture_output=True).stdout.decode()


def picture(folder):
    """The bytes and times of a folder's files."""
    found = {}
    for it in os.scandir(folder):
        with open(it.path, "rb") as file:
            found[it.name] = (file.read(), it.stat().st_mtime_ns)
    return found


@contextlib.contextmanager
def held(path):
    """A desk's own file, as while a desk is at work."""
    with open(path, "ab") as file:
        fcntl.flock(file, fcntl.LOCK_EX)
        yield


class Days:
    """Runs of next-desk in a room of its own."""

    def __init__(self, runs, room):
        self.runs, self.room = runs, room

    def folder(self, name):
        return f"{self.room}/{name}"

    def next(self, what, old, new, out, state, err="", status=0, more=(), asked=None):
        """Compares a run, and the new desk's `state` and `asked`, which is `out` if it isn't given.
        The old folder has to be as it was."""
        old, new = self.folder(old), self.folder(new)
        before = picture(old)
        self.runs.case(f"next-desk: {what}", ["next-desk", old, new, *more], "", status, out, err)
        if picture(old) != before:
            self.runs.differs(f"next-desk: {what}: the old folder", "as it was", os.listdir(old))
        wanted = (state, asked or out if state is not None else None)
        found = (read(f"{new}/state"), read(f"{new}/asked"))
        if found != wanted:
            self.runs.differs(f"next-desk: {what}: state and asked", wanted, found)


def said(*lines):
    return "".join(f"next-desk: {line}\n" for line in lines)


def outcomes(days):
    """Each outcome, of rows that were asked for and of others."""
    names = "arrived behind extra failed free greater held leaves moved never odd prior same undone"
    old = dict.fromkeys([*names.split(), "waits"], "1.0-1") | {"odd": "1.0+b1"}
    state = "failed/amd64 Failed 0 0\nnever/amd64 Not-For-Us 0 0\nheld/amd64 Uploaded 0 1\n"
    installed = {name: version for name, version in old.items() if name != "never"}
    folder = archive(days.folder("old"), old, installed, state=state)
    desk(
        days.runs, folder,
        "nmu arrived greater moved leaves odd undone same . ANY",
        "undo 1",
        "nmu arrived greater moved leaves odd same . ANY",
        'nmu extra . ANY . -m "again" --extra-depends "liba (>= 2), libb"',
        "bp 7 extra . ANY",
        "nmu 2 behind . ANY",
        "nmu waits . ANY",
        'dw waits . ANY . -m "greater-bin (>= 1.0-1+b1)"',
        "bp -3 prior . ANY",
        "gb failed . ANY",
        "claim 7 arrived amd64",
        "finish 7 built",
        "arrive arrived amd64",
        "claim 7 odd amd64",
        "finish 7 attempted",
    )
    new = {name: version for name, version in old.items() if name != "leaves"}
    new |= {"moved": "1.1-1", "free": "2", "fresh": "1"}
    now = installed | {"moved": "1.1-1", "fresh": "1", "greater": "1.0-1+b2"}
    now |= {"same": "1.0-1+b1", "behind": "1.0-1+b1", "free": None}
    archive(days.folder("new"), new, now)
    out = (
        "arrived/amd64 waiting Installed\n"
        "behind/amd64 waiting Needs-Build\n"
        "extra/amd64 waiting Needs-Build\n"
        "failed/amd64 waiting Needs-Build\n"
        "greater/amd64 done\n"
        "held/amd64 waiting Uploaded\n"
        "leaves/amd64 gone\n"
        "moved/amd64 superseded 1.1-1\n"
        "odd/amd64 waiting Build-Attempted\n"
        "same/amd64 done\n"
        "waits/amd64 waiting Dep-Wait\n"
    )
    rows = (
        "arrived/amd64 Installed 0 1\n"
        "behind/amd64 Needs-Build 0 2\n"
        "extra/amd64 Needs-Build 7 1 ;17 liba (>= 2), libb\n"
        "failed/amd64 Needs-Build 0 0\n"
        "held/amd64 Uploaded 0 1\n"
        "never/amd64 Not-For-Us 0 0\n"
        "odd/amd64 Build-Attempted 0 2\n"
        "waits/amd64 Dep-Wait 0 1 : greater-bin (>= 1.0-1+b1)\n"
    )
    err = said(
        "leaves/amd64 was Needs-Build 1: the new indices have no such row",
        "moved/amd64 was Needs-Build 1: its source has version 1.1-1 now, and not 1.0-1",
        "rows that are superseded, and were as the old indices have them: 1",
    )
    line = "extra/amd64 waiting Needs-Build"
    asked = out.replace(line, f"{line} : again")
    days.next("each outcome", "old", "new", out, rows, err, asked=asked)
    answers = desk(days.runs, days.folder("new"), "sweep", "row waits amd64", "row extra amd64")
    wanted = (
        "entry 1 takes waits/amd64\nwaits/amd64 Needs-Build 0 1\n"
        "extra/amd64 Needs-Build 7 1 ;17 liba (>= 2), libb\n"
    )
    if answers != wanted:
        days.runs.differs("next-desk: the new desk's answers", wanted, answers)


def versions(days):
    """A source whose version ends in +bN, which no command line can name. Its packages of the same
    version count as its rebuild N."""
    archive(days.folder("odd-1"), {"odd": "1.0+b1", "odder": "1.0+b1"}, {"odd": "1.0+b1"})
    desk(days.runs, days.folder("odd-1"), "nmu odd . ANY", "gb odder . ANY", "claim 1 odder amd64",
         "finish 1 attempted", "gb odder . ANY")
    archive(days.folder("odd-2"), {"odd": "1.0+b2", "odder": "1.0+b3"}, {"odd": "1.0+b2"})
    out = "odd/amd64 superseded 1.0+b2\nodder/amd64 superseded 1.0+b3\n"
    err = said(
        "odd/amd64 was Needs-Build 2: its source has version 1.0+b2 now, and not 1.0+b1",
        "odder/amd64 was Needs-Build 0: its source has version 1.0+b3 now, and not 1.0+b1",
    )
    days.next("a source version with +bN", "odd-1", "odd-2", out, "", err)


def decisions(days):
    """What the old indices said already: a state of wanna-build's that is behind them, and one that
    people decided on."""
    sources = dict.fromkeys(["behind", "failed", "never", "wrong"], "1")
    state = "behind/amd64 Uploaded 0 0\nfailed/amd64 Failed 0 0\nnever/amd64 Not-For-Us 0 0\n"
    archive(days.folder("decided-1"), sources, sources, state=state + "wrong/amd64 Failed 0 1\n")
    archive(days.folder("decided-2"), sources, sources | {"wrong": "1+b1"})
    rows = "failed/amd64 Failed 0 0\nnever/amd64 Not-For-Us 0 0\n"
    days.next("no news", "decided-1", "decided-2", "wrong/amd64 done\n", rows)


def chain(days):
    """Five days: what is asked for on the first is told of until it is done, and so is a gb, which
    leaves no trace in the rows."""
    archs = ("amd64", "i386")
    sources = {"aa": "1", "bb": "1", "cc": "1"}
    first = {"aa": "1", "bb/amd64": "1"}
    archive(days.folder("day-1"), sources, first, archs, state="bb/i386 Failed 0 0\n")
    desk(days.runs, days.folder("day-1"), "nmu aa . ANY", "gb bb . i386")
    archive(days.folder("day-2"), sources, first | {"aa/amd64": "1+b1"}, archs)
    out = "aa/amd64 done\naa/i386 waiting Needs-Build\nbb/i386 waiting Needs-Build\n"
    days.next("day 2", "day-1", "day-2", out, "aa/i386 Needs-Build 0 1\n")
    # Nobody says a word at the desk of day 2.
    archive(days.folder("day-3"), sources, first | {"aa/amd64": "1+b1"}, archs)
    out = "aa/i386 waiting Needs-Build\nbb/i386 waiting Needs-Build\n"
    days.next("day 3", "day-2", "day-3", out, "aa/i386 Needs-Build 0 1\n")
    desk(days.runs, days.folder("day-3"), "claim 1 bb i386", "finish 1 built", "claim 1 aa i386",
         "finish 1 waits : cc-bin")
    archive(days.folder("day-4"), sources, first | {"aa/amd64": "1+b1", "bb/i386": "1"}, archs)
    out = "aa/i386 waiting Dep-Wait\nbb/i386 done\n"
    days.next("day 4", "day-3", "day-4", out, "aa/i386 Dep-Wait 0 1 : cc-bin\n")
    archive(days.folder("day-5"), sources, first, ["amd64"])
    err = said(
        "aa/i386 was Dep-Wait 1: the new indices have no such row",
        "rows that are gone, and were as the old indices have them: 2",
    )
    # (aa/amd64 is +b1 in day 4's indices, and not in day 5's, which are right)
    days.next("an architecture leaves", "day-4", "day-5", "aa/i386 gone\n", "", err)


def messages(days):
    """The message of a rebuild lasts as long as the rebuild waits; the latest nmu counts."""
    sources = dict.fromkeys(["aa", "aa+", "cc", "dd"], "1")
    extra = '--extra-depends "liba (>= 2)"'
    archive(days.folder("told-1"), sources, sources)
    desk(days.runs, days.folder("told-1"), "nmu aa+ . ANY",
         f'nmu aa dd . ANY . -m "for : liba2 ;3" {extra}', 'nmu cc . ANY . -m "why ü"',
         'dw cc . ANY . -m "liba"')
    archive(days.folder("told-2"), sources, sources)
    out = "".join(f"{name}/amd64 waiting Needs-Build\n" for name in ("aa", "aa+", "cc", "dd"))
    out = out.replace("cc/amd64 waiting Needs-Build", "cc/amd64 waiting Dep-Wait")
    asked = out.replace("Dep-Wait", "Dep-Wait : why ü")
    for name in ("aa", "dd"):
        line = f"{name}/amd64 waiting Needs-Build"
        asked = asked.replace(line, f"{line} : for : liba2 ;3")
    rows = (
        "aa/amd64 Needs-Build 0 1 ;11 liba (>= 2)\naa+/amd64 Needs-Build 0 1\n"
        "cc/amd64 Dep-Wait 0 1 : liba\ndd/amd64 Needs-Build 0 1 ;11 liba (>= 2)\n"
    )
    days.next("messages", "told-1", "told-2", out, rows, asked=asked)
    desk(days.runs, days.folder("told-2"), "gb cc . ANY")
    archive(days.folder("told-3"), sources, sources)
    out, asked, rows = (it.replace("Dep-Wait", "Needs-Build") for it in (out, asked, rows))
    rows = rows.replace(" : liba\n", "\n")
    days.next("messages, a day later", "told-2", "told-3", out, rows, asked=asked)


def builders(days):
    """A row that is Building."""
    sources = dict.fromkeys(["aa", "bb", "cc", "dd"], "1")
    archive(days.folder("held-1"), sources, sources)
    desk(days.runs, days.folder("held-1"), "nmu aa bb cc dd . ANY", "claim 3 aa amd64",
         "claim 4 bb amd64", "claim 5 cc amd64")
    archive(days.folder("held-2"), sources | {"bb": "2"}, sources | {"cc": "1+b1"})
    err = said(
        "aa/amd64 is being built by builder 3: finish it at the old desk first",
        "nothing is written (--give-back gives these builds back)",
    )
    days.next("Building", "held-1", "held-2", "", None, err, 1)
    out = (
        "aa/amd64 waiting Needs-Build\nbb/amd64 superseded 2\ncc/amd64 done\n"
        "dd/amd64 waiting Needs-Build\n"
    )
    lost = said(
        "bb/amd64 was Building=4 1: its source has version 2 now, and not 1",
        "cc/amd64 was Building=5 1: the new indices have its build already",
    )
    err = said("aa/amd64 is being built by builder 3: it starts as Needs-Build") + lost
    rows = "aa/amd64 Needs-Build 0 1\ndd/amd64 Needs-Build 0 1\n"
    days.next("--give-back", "held-1", "held-2", out, rows, err, 0, ["--give-back"])
    desk(days.runs, days.folder("held-1"), "finish 3 built")
    archive(days.folder("held-3"), sources | {"bb": "2"}, sources | {"cc": "1+b1"})
    out = out.replace("Needs-Build", "Built", 1)
    rows = rows.replace("Needs-Build", "Built", 1)
    days.next("builds that are of no use any more", "held-1", "held-3", out, rows, lost)


def refusals(days):
    """Folders and words that are refused. Nothing is written."""
    runs = days.runs
    old = archive(days.folder("from"), {"aa": "1"}, {"aa": "1"})
    desk(runs, old, "nmu aa . ANY")
    new = archive(days.folder("to"), {"aa": "1"}, {"aa": "1"})
    other, bare = days.folder("other"), days.folder("bare")
    os.mkdir(bare)

    def refused(what, words, status, err):
        runs.case(f"next-desk: {what}", ["next-desk", *words], "", status, "", err and said(err))

    for name in ("state", "journal"):
        shutil.copytree(new, other)
        write(f"{other}/{name}", "")
        err = f"{other}/{name} is there already: a desk is made once"
        refused(f"a {name} is there", [old, other], 2, err)
        shutil.rmtree(other)
    refused("one folder", [new, f"{new}/."], 2, f"{new} and {new}/. are one folder")
    refused("no desk", [bare, new], 2, f"{bare}: it is no desk's folder: it has no archs")
    refused("no folder", [old, other], 2, f"{other}: it is no folder")
    refused("no words", [], 3, "OLD is needed (--help says which words there are)")
    refused("one word", [old], 3, "NEW is needed (--help says which words there are)")
    err = "x: one word too many (--help says which there are)"
    refused("three words", [old, new, "x"], 3, err)
    err = "--foo: no such option (--help says which there are)"
    refused("another option", [old, new, "--foo"], 3, err)
    with held(f"{old}/journal"):
        refused("a locked desk", [old, new], 6, f"{old}: another desk is at work there")
    for name, text, err in (
        ("journal", "x\n", f"{other}: journal: BadHeader"),
        ("state", "aa/amd64 Building=1 0 0\n", f"{other}: state: NotOpening"),
        ("state", "aa/amd64 Waiting 0 0\n", f"{other}: state: BadLine"),
        ("state", "aa/amd64 Failed 0 0\n", f"{other}: journal: OtherRows"),
        ("packages", "x\n", f"{other}: packages: Stanza"),
        ("asked", b"\xff", f"{other}/asked: byte 0 is no text (UTF-8)"),
    ):
        shutil.copytree(old, other)
        write(f"{other}/{name}", text)
        refused(f"the old {name}: {err}", [other, new], 2, err)
        shutil.rmtree(other)
    if sorted(os.listdir(new)) != ["archs", "packages", "sources"]:
        runs.differs("next-desk: what is refused writes", "nothing", os.listdir(new))


def disks(days):
    """Disks that are full, a pipe that is closed, a journal with a torn end."""
    runs, old = days.runs, days.folder("from")
    with open(f"{old}/journal", "ab") as file:
        file.write(b"2 bp=5 aa/am")
    new = archive(days.folder("full"), {"aa": "1"}, {"aa": "1"})
    for name in ("asked", "state"):
        os.symlink("/dev/full", f"{new}/{name}.new")
        err = said(f"{new}/{name}: No space left on device")
        runs.case("next-desk: a full disk", ["next-desk", old, new], "", 5, "", err)
        if os.path.lexists(f"{new}/state"):
            runs.differs("next-desk: a full disk", "no state", os.listdir(new))
    for way in runs.unread("next-desk"):
        new = archive(days.folder(f"to {way.name}"), {"aa": "1"}, {"aa": "1"})
        runs.into(way, ["next-desk", old, new], b"")
        found = (read(f"{new}/state"), read(f"{new}/asked"))
        wanted = ("aa/amd64 Needs-Build 0 1\n", "aa/amd64 waiting Needs-Build\n")
        if found != wanted:
            runs.differs(f"next-desk into {way.name}", wanted, found)


def many(days):
    """20,000 rows."""
    sources = {f"s{number:05}": "1" for number in range(20_000)}
    old = archive(days.folder("many-1"), sources, sources)
    desk(days.runs, old, f"nmu {' '.join(sources)} . ANY")
    new = archive(days.folder("many-2"), sources, {name: "1+b1" for name in list(sources)[10_000:]})
    begun = time.monotonic()
    done = days.runs.run(["next-desk", old, new], b"")
    took = time.monotonic() - begun
    days.runs.ran += 1
    lines = done.stdout.decode().splitlines()
    ends = (" done", " waiting Needs-Build")
    counts = [sum(line.endswith(end) for line in lines) for end in ends]
    if counts != [10_000, 10_000] or took > SECONDS:
        days.runs.differs("next-desk: 20,000 rows", "half of them done, in time", (counts, took))


def run_all(runs):
    with tempfile.TemporaryDirectory() as room:
        days = Days(runs, room)
        groups = (outcomes, versions, decisions, chain, messages, builders, refusals, disks, many)
        for group in groups:
            group(days)
