"""Runs of bin/follow: a desk follows wanna-build.

The table of states and the answers are worked out by hand, from the manual page.
"""

import os
import tempfile
import time

from bin_days import SECONDS, archive, desk, held, read, write

HEADER = "source,architecture,version,state,binary_nmu_version,depends\n"
SHORT = {
    "NB": "Needs-Build", "Bg": "Building", "Bt": "Built", "Up": "Uploaded", "In": "Installed",
    "DW": "Dep-Wait", "BD": "BD-Uninstallable", "BA": "Build-Attempted", "Fa": "Failed",
    "NF": "Not-For-Us",
}
# What a call leaves: by the desk's state (a line) and wanna-build's (a column). Of what has a mark
# `!` it is said that no line leads there. Ow is Building by a builder of follow's, Bg by another.
TABLE = """
     NB   Bg   Bt   Up   In   DW   BD   BA   Fa   NF
NB   NB   Ow   Bt   Bt   In   DW   NB!  BA   BA   NB!
Ow   NB   Ow   Bt   Bt   In   DW   NB!  BA   BA   NB!
Bg   Bg!  Bg   Bg!  Bg!  Bg!  Bg!  Bg!  Bg!  Bg!  Bg!
Bt   Bt!  Bt!  Bt   Bt   In   Bt!  Bt!  Bt!  Bt!  Bt!
Up   Up!  Up!  Up   Up   In   Up!  Up!  Up!  Up!  Up!
In   In!  In!  In!  In!  In   In!  In!  In!  In!  In!
DW   DW!  DW!  DW!  DW!  DW!  DW   DW!  DW!  DW!  DW!
BD   BD!  BD!  BD!  BD!  BD!  BD!  BD   BD!  BD!  BD!
BA   BA!  BA!  BA!  BA!  BA!  BA!  BA!  BA   BA   BA!
Fa   Fa!  Fa!  Fa!  Fa!  Fa!  Fa!  Fa!  Fa   Fa   Fa!
NF   NF!  NF!  NF!  NF!  NF!  NF!  NF!  NF!  NF!  NF
"""


def said(*lines):
    return "".join(f"follow: {line}\n" for line in lines)


def stays(key, state, why):
    return f"{key} stays {state}: wanna-build has it {why}"


def other(key, state, there, version):
    why = f"{there} in version {version}, and the desk's indices have another"
    return stays(key, state, why)


def rows_of(runs, folder):
    """The states and numbers of a desk's rows, by their keys."""
    rows = [line.split(" ") for line in desk(runs, folder, "rows").splitlines()]
    return {row[0]: (row[1].partition("=")[0], row[3]) for row in rows}


class Room:
    """Runs of follow in a folder of its own."""

    def __init__(self, runs, path):
        self.runs, self.path = runs, path

    def desk(self, name, sources, *lines, **files):
        """A desk over sources that are built, to which these lines are given."""
        folder = archive(f"{self.path}/{name}", sources, sources, **files)
        return folder, desk(self.runs, folder, *lines)

    def follow(self, what, folder, csv, out, err="", status=0, more=()):
        """Compares a run; then a second one, which makes no line and says the same."""
        csv = csv if isinstance(csv, bytes) else (HEADER + csv).encode()
        self.runs.case(f"follow: {what}", ["follow", folder, *more], csv, status, out, err)
        if status == 0:
            kept = read(f"{folder}/journal")
            words = ["follow", folder, *more]
            self.runs.case(f"follow: {what}, again", words, csv, 0, "", err)
            found = read(f"{folder}/journal")
            if found != kept:
                self.runs.differs(f"follow: {what}, again: the journal", kept, found)


def table(room):
    """Each pair of states, once: a row whose source is named for both."""
    head, *lines = TABLE.strip().split("\n")
    pairs = {}
    for line in lines:
        at, *left = line.split()
        pairs |= {(at, there): it for there, it in zip(head.split(), left)}
    source = {pair: f"{pair[0]}-{pair[1]}".lower() for pair in pairs}
    names = {name: "1" for name in source.values()}
    state = "".join(
        f"{source[pair]}/amd64 {SHORT['NB' if pair[0] in ('Ow', 'Bg') else pair[0]]} 0 1\n"
        for pair in pairs
    )
    folder, _ = room.desk("table", names, state=state)
    first = [f"{source[pair]},amd64,1,Building,1,\n" for pair in pairs if pair[0] == "Ow"]
    given = HEADER + "".join(first)
    room.runs.run(["follow", folder], given.encode())
    others = [source[pair] for pair in pairs if pair[0] == "Bg"]
    desk(room.runs, folder, *[f"claim {n} {name} amd64" for n, name in enumerate(others, 1)])
    before = rows_of(room.runs, folder)
    csv = HEADER + "".join(
        f"{source[pair]},amd64,1,{SHORT[pair[1]]},1,libx (>= 2) | liby\n" for pair in pairs
    )
    done = room.runs.run(["follow", folder], csv.encode())
    after, told = rows_of(room.runs, folder), done.stderr.decode()
    for pair, left in pairs.items():
        room.runs.ran += 1
        key, at = f"{source[pair]}/amd64", SHORT["Bg" if pair[0] == "Ow" else pair[0]]
        wanted = (at, SHORT["Bg" if left == "Ow" else left[:2]], left.endswith("!"))
        found = (before[key][0], after[key][0], f"follow: {key} stays " in told)
        if found != wanted:
            room.runs.differs(f"follow: {pair[0]} and {pair[1]}", wanted, found)
    own = {line.split(" ")[1] for line in read(f"{folder}/followed").splitlines()}
    if own != {"nb-bg/amd64", "ow-bg/amd64"}:
        room.runs.differs("follow: followed", "two rows", own)
    room.runs.case("follow: the table, again", ["follow", folder], csv, 0, "", told)


def lines(room):
    """The lines of some pairs, and what is said of rows that aren't led."""
    sources = {name: "1" for name in ("aa", "bb", "cc", "dd", "ee", "ff")}
    folder, _ = room.desk(
        "lines", sources, "nmu aa bb cc dd . ANY", "bp 5 ff . ANY", 'nmu 3 ee . ANY . -m "why"',
        "claim 64 dd amd64",
    )
    csv = (
        "zz,amd64,1,Installed,1,\n"  # no row of the desk
        "aa,armel,1,Installed,1,\n"  # no architecture of the table
        "ee,amd64,1,Installed,3.0,\n"
        "dd,amd64,1,Built,1,\n"
        "cc,amd64,1,Dep-Wait,1,libx (>= 2) | liby\n"
        "bb,amd64,2,Building,,\n"
        "aa,amd64,1,Building,1,\n"
        "ff,amd64,1,Failed-Removed,,\n"
    )
    out = (
        "entry 5 builds cc/amd64 1+b1 1\n"
        "entry 6 takes cc/amd64\n"
        "entry 7 builds ee/amd64 1+b3 3 : why\n"
        "entry 8 takes ee/amd64\n"
        "entry 9 takes ee/amd64\n"
        "entry 10 builds aa/amd64 1+b1 1\n"
    )
    bb = other("bb/amd64", "Needs-Build 1", "Building", "2")
    dd = stays("dd/amd64", "Building=64 1", "Built, and builder 64 isn't one of follow's")
    ff = stays("ff/amd64", "Installed 0", "Failed-Removed: the desk has no such state")
    room.follow("some lines", folder, csv, out, said(bb, dd, ff))
    if read(f"{folder}/followed") != "63 aa/amd64\n":
        room.runs.differs("follow: followed", "63 aa/amd64", read(f"{folder}/followed"))
    csv = csv.replace("bb,amd64,2,Building,,", "bb,amd64,1,Uploaded,2,")
    bb = stays("bb/amd64", "Needs-Build 1", "Uploaded under number 2")
    room.follow("another number", folder, csv, "", said(bb, dd, ff))
    csv = csv.replace("aa,amd64,1,Building,1,", "aa,amd64,1.1,Needs-Build,,")
    err = said(other("aa/amd64", "Needs-Build 1", "Needs-Build", "1.1"), bb, dd, ff)
    room.follow("a claim on another version", folder, csv, "entry 11 takes aa/amd64\n", err)
    given = (HEADER + csv).replace("\n", "\r\n").encode()
    room.follow("CRLF", folder, given, "", err)
    room.follow("a byte order mark", folder, b"\xef\xbb\xbf" + given, "", err)


def waits(room):
    """What a row waits for has to be a relation."""
    texts = {"aa": "", "bb": "libx (> 2)", "cc": '"libx ""a"""', "dd": '"libx,\n liby"'}
    texts |= {"ee": "a'b", "ff": '"""libx"""'}
    folder, _ = room.desk("waits", dict.fromkeys(texts, "1"), f"nmu {' '.join(texts)} . ANY")
    csv = "".join(f"{name},amd64,1,Dep-Wait,1,{text}\n" for name, text in texts.items())
    shown = {"aa": "it is empty", "bb": "libx (> 2)", "cc": 'libx "a"', "ee": "a'b"}
    shown["ff"] = '"libx"'
    why = "Dep-Wait, and what it waits for is no relation: "
    rows = {f"{name}/amd64": why + text for name, text in shown.items()}
    err = said(*[stays(key, "Needs-Build 1", why) for key, why in rows.items()])
    out = "entry 2 builds dd/amd64 1+b1 1\nentry 3 takes dd/amd64\n"
    room.follow("dep-waits", folder, csv, out, err)
    row = desk(room.runs, folder, "row dd amd64")
    if row != "dd/amd64 Dep-Wait 0 1 : libx, liby\n":
        room.runs.differs("follow: a dep-wait", "libx, liby", row)
    bare = b"source,architecture,version,state,binary_nmu_version\naa,amd64,1,Dep-Wait,1\n"
    room.follow("no column depends", folder, bare, "", err.splitlines(True)[0])


def sweeps(room):
    """A transition in three steps: what waits is freed by arrivals, with --sweep."""
    sources = {"aa": "1", "bb": "1", "cc": "1"}
    commands = ["nmu aa bb cc . ANY", 'dw bb . ANY . -m "aa-bin (>= 1+b1)"',
                'dw cc . ANY . -m "bb-bin (>= 1+b1)"']
    csv = "aa,amd64,1,Installed,1,\nbb,amd64,1,Installed,1,\ncc,amd64,1,Building,1,\n"
    folder, _ = room.desk("unswept", sources, *commands)
    out = "entry 4 builds aa/amd64 1+b1 1\nentry 5 takes aa/amd64\nentry 6 takes aa/amd64\n"
    why = "{}, and no builder's line leads there (but `sweep` may lead on)"
    err = said(
        stays("bb/amd64", "Dep-Wait 1", why.format("Installed")),
        stays("cc/amd64", "Dep-Wait 1", why.format("Building")),
    )
    room.follow("waits without a sweep", folder, csv, out, err)
    folder, _ = room.desk("swept", sources, *commands)
    out += (
        "entry 7 takes bb/amd64\n"
        "entry 8 builds bb/amd64 1+b1 1\nentry 9 takes bb/amd64\nentry 10 takes bb/amd64\n"
        "entry 11 takes cc/amd64\n"
        "entry 12 builds cc/amd64 1+b1 1\n"
    )
    room.follow("sweeps", folder, csv, out, more=["--sweep"])


def builders(room):
    """65 rows are Building; then one is built."""
    names = [f"s{number:02}" for number in range(1, 66)]
    sources = dict.fromkeys([*names, "zz"], "1")
    folder, _ = room.desk("builders", sources, f"nmu {' '.join(names)} . ANY")
    csv = "zz,amd64,2,Built,,\n" + "".join(f"{name},amd64,1,Building,1,\n" for name in names)
    first = enumerate(names[:64], 2)
    out = "".join(f"entry {number} builds {name}/amd64 1+b1 1\n" for number, name in first)
    last = stays("s65/amd64", "Needs-Build 1", "Building, and no builder is free")
    zz = other("zz/amd64", "Installed 0", "Built", "2")
    room.follow("65 builds", folder, csv, out, said(last, zz))
    csv = csv.replace("s64,amd64,1,Building", "s64,amd64,1,Built")
    out = "entry 66 takes s64/amd64\nentry 67 builds s65/amd64 1+b1 1\n"
    room.follow("a builder that gets free", folder, csv, out, said(zz))
    # A builder that nobody knows of has each row now: what was noted is lost.
    os.unlink(f"{folder}/followed")
    csv = csv.replace("s01,amd64,1,Building", "s01,amd64,1,Installed")
    why = "Installed, and builder 64 isn't one of follow's"
    err = said(stays("s01/amd64", "Building=64 1", why), zz)
    room.follow("claims that are lost", folder, csv, "", err)
    # A call that was cut off after a claim: the claim was noted before.
    folder, _ = room.desk("cut", {"aa": "1"}, "nmu aa . ANY", "claim 64 aa amd64")
    write(f"{folder}/followed", "64 aa/amd64\n64 bb/amd64\n")
    out = "entry 3 takes aa/amd64\nentry 4 takes aa/amd64\n"
    room.follow("a claim before", folder, "aa,amd64,1,Installed,1,\n", out)
    if read(f"{folder}/followed"):
        room.runs.differs("follow: followed", "no row", read(f"{folder}/followed"))


def refusals(room):
    """Wrong inputs, of which nothing is done."""
    runs = room.runs
    folder, _ = room.desk("wrong", {"aa": "1"}, "nmu aa . ANY")
    kept = read(f"{folder}/journal")
    right = HEADER + "aa,amd64,1,Installed,1,\n"

    def refused(what, words, csv, status, err):
        runs.case(f"follow: {what}", ["follow", *words], csv, status, "", said(err))

    start = "standard input: "
    refused("an empty file", [folder], "", 2, f"{start}no column source in the header line")
    for column in HEADER.strip().split(",")[:4]:
        csv = right.replace(column, "x", 1)
        refused(f"no {column}", [folder], csv, 2, f"{start}no column {column} in the header line")
    refused("no text", [folder], b"\xff", 2, f"{start}byte 0 is no text (UTF-8)")
    why = "line 2: it hasn't as many columns as the header"
    refused("a short line", [folder], HEADER + "aa,amd64\n", 2, start + why)
    why = "line 3: aa/amd64 is there twice (one distribution?)"
    refused("a row twice", [folder], right + "aa,amd64,1,Building,1,\n", 2, start + why)
    refused("no folder", ["/absent"], right, 2, "/absent: it is no folder")
    os.mkdir(f"{room.path}/bare")
    why = f"{room.path}/bare: it is no desk's folder: it has no archs"
    refused("no desk", [f"{room.path}/bare"], right, 2, why)
    refused("no words", [], right, 3, "FOLDER is needed (--help says which words there are)")
    with held(f"{folder}/journal"):
        refused("a locked desk", [folder], right, 6, f"{folder}: another desk is at work there")
    write(f"{folder}/state", "aa/amd64 Failed 0 0\n")
    refused("another state", [folder], right, 2, f"{folder}: journal: OtherRows")
    write(f"{folder}/state", "aa/amd64 Building=1 0 0\n")
    refused("a state that no row has", [folder], right, 2, f"{folder}: state: NotOpening")
    os.unlink(f"{folder}/state")
    os.symlink("/dev/full", f"{folder}/followed.new")
    why = f"{folder}/followed: No space left on device"
    refused("a full disk", [folder], right, 5, why)
    if read(f"{folder}/journal") != kept:
        runs.differs("follow: what is refused", kept, read(f"{folder}/journal"))


def streams(room):
    """Nobody reads the answers, or there is no room for them: the lines are done all the same."""
    for way in room.runs.unread("follow"):
        folder, _ = room.desk(f"out {way.name}", {"aa": "1"}, "nmu aa . ANY")
        given = (HEADER + "aa,amd64,1,Installed,1,\n").encode()
        room.runs.into(way, ["follow", folder], given)
        row = desk(room.runs, folder, "row aa amd64")
        if row != "aa/amd64 Installed 0 1\n":
            room.runs.differs(f"follow into {way.name}", "Installed", row)


def many(room):
    """20,000 rows, of which 200 were built."""
    names = [f"s{number:05}" for number in range(20_000)]
    folder, _ = room.desk("many", dict.fromkeys(names, "1"), f"nmu {' '.join(names[:200])} . ANY")
    built = "".join(f"{name},amd64,1,Built,1,\n" for name in names[:200])
    csv = HEADER + built + "".join(f"{name},amd64,1,Installed,,\n" for name in names[200:])
    begun = time.monotonic()
    done = room.runs.run(["follow", folder], csv.encode())
    took = time.monotonic() - begun
    room.runs.ran += 1
    found = (done.returncode, done.stdout.count(b"\n"), done.stderr)
    if found != (0, 400, b"") or took > SECONDS:
        room.runs.differs("follow: 20,000 rows", "400 answers, in time", (found, took))


def run_all(runs):
    with tempfile.TemporaryDirectory() as path:
        room = Room(runs, path)
        for group in (table, lines, waits, sweeps, builders, refusals, streams, many):
            group(room)
