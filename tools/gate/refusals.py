"""Files with faults, made here: what is said of each, by each subcommand that reads it."""

import bz2
import gzip
import lzma
import os

import cases
from runs import TOO_LONG, UNREAD, UNWRITTEN

COMMANDS = ("check", "track", "waves", "plan", "run", "desk")
# The file of desks. Each other file is judged before, so that it isn't made.
DESK = "refused.desk"
# The words that a subcommand needs besides its files.
NEEDED = {"plan": ["--message=x"], "desk": [f"--journal={DESK}"]}
WAVES = cases.archive("waves", cases.OF_ARCHIVE)
# A text that isn't UTF-8.
NO_TEXT = cases.Case("simulate", "latin-1").path("input")
LONG = 1_000_000
# What is shown of a long line.
SHOWN = "z" * 60
AMD64 = "Package: yy\nVersion: 1\nArchitecture: amd64\n"
OPEN = "a key and its query, as docs/FORMATS.md has trackers; at most 100 ( and ! are open"
NO_ARCH = "an architecture, as NAME OS CPU"
NO_NAME = "a name of small letters, digits and hyphens: no hyphen first, no any at either end"
NO_OS = "an operating system of small letters and digits after one space, and not any"
NO_CPU = "a processor of small letters and digits after one space, and not any"
END = "a ; after each value, also the last, and an end of each text, pattern and bracket"
WORDS = "& for and, | for or, ! for not"
COMPARISON = "no comparison: a pattern on .version, or .depends ~ /liba1 \\(>= 3\\./"
SLASH = "nothing right after a pattern: its flag is (?i) at its front, a slash within it \\/"
# Files with faults: role, text, refusal, and what --explain says behind the role.
MADE = [
    ("tracker", "", "MissingKey", "wanted: a key is_affected"),
    ("tracker", "is_affected = true; is_bad = true;", "MissingKey", "wanted: a key is_good"),
    ("tracker", "is_affected", "Syntax", f'byte 11, line 1, column 12 has ""; wanted: {END}'),
    ("tracker", 'title = "x', "Syntax", f'byte 10, line 1, column 11 has ""; wanted: {END}'),
    ("tracker", "is_affected = .depends ~ /x", "Syntax",
     f'byte 27, line 1, column 28 has ""; wanted: {END}'),
    ("tracker", "is_affected = not true;", "Syntax",
     f'byte 14, line 1, column 15 has "not true;"; wanted: {WORDS}'),
    ("tracker", "is_affected = nothing;", "Syntax",
     f'byte 14, line 1, column 15 has "nothing;"; wanted: {OPEN}'),
    ("tracker", 'is_affected = .version != "1";', "Syntax",
     f'byte 23, line 1, column 24 has "!= "1";"; wanted: {COMPARISON}'),
    ("tracker", "is_affected = .file ~ /usr/lib/;", "Syntax",
     f'byte 27, line 1, column 28 has "lib/;"; wanted: {SLASH}'),
    ("tracker", 'title = "x";\n\n\0', "Syntax",
     f'byte 14, line 3, column 1 has "\\x00"; wanted: {OPEN}'),
    ("tracker", f"is_affected = {'(' * 100}(true", "Syntax",
     f'byte 114, line 1, column 115 has "(true"; wanted: {OPEN}'),
    ("archs", "\ufeffamd64 linux amd64\n", "BadLine",
     f'line 1 has "\ufeffamd64 linux amd64"; wanted: {NO_NAME}'),
    ("archs", "any-amd64 linux amd64\n", "BadLine",
     f'line 1 has "any-amd64 linux amd64"; wanted: {NO_NAME}'),
    ("archs", "amd64 any amd64\n", "BadLine", f'line 1 has "amd64 any amd64"; wanted: {NO_OS}'),
    ("archs", "amd64 linux amd64\r\n", "BadLine",
     f'line 1 has "amd64 linux amd64\\x0d"; wanted: {NO_CPU}'),
    ("archs", "i386 linux i386 x\n", "BadLine",
     f'line 1 has "i386 linux i386 x"; wanted: {NO_CPU}'),
    ("archs", "# one\r\namd64\r\n", "BadLine", f'line 2 has "amd64\\x0d"; wanted: {NO_ARCH}'),
    ("sources",
     "Package: qb\nVersion: 1\nArchitecture: any\n\n \t\n\n"
     "Package: rc\nDescription: one\n .\n two\nArchitecture: any\n",
     "MissingField", 'stanza 2, line 7 has "Package: rc"; wanted: a field Version'),
    ("packages", "Version: 1\nArchitecture: amd64\n", "MissingField",
     'stanza 1, line 1 has "Version: 1"; wanted: a field Package that names a package'),
    ("packages", f"{AMD64}Source: (1)\n", "MissingField",
     'stanza 1, line 1 has "Package: yy"; wanted: a field Source that names a package'),
    ("packages", " x\n", "Stanza",
     'line 1 has " x"; wanted: a field, since none is above that could go on here'),
    ("packages", f"{AMD64}Source: bb (1_0)\n", "BadVersion",
     'stanza 1, line 1 has "Package: yy"; wanted: '
     "a version in the brackets of Source as deb-version(7) has it"),
]
# The fields that have relations.
RELATIONS = {
    "packages": ("Pre-Depends", "Provides", "Depends"),
    "sources": ("Build-Depends-Arch", "Build-Depends"),
}
# What is said of an index that has one line `Package: foo`, of a file of each role.
UNFIT = {"packages": "MissingField", "sources": "MissingField", "tracker": "Syntax",
         "journal": "BadHeader"}
AFFECTS_NOTHING = 'title = "T"; is_affected = false; is_good = true; is_bad = true;\n'


def words_of(command, changed, *others):
    """The words of a subcommand over the archive `waves`, with other files for some roles. A check
    has a tracker, and details, only if another one is given."""
    files, needed = {**WAVES, **changed}, NEEDED.get(command, ())
    if command == "check" and "tracker" in changed:
        needed = ["--details"]
    elif command == "check":
        del files["tracker"]
    read = {role: files[role] for role in cases.READ_BY[command] if role in files}
    return [command, *needed, *others, *cases.options(read)]


def said_of(role, fault, *more):
    """The lines on standard error."""
    return "".join(f"{line}\n" for line in (f"transdesk: {role}: {fault}", *more)).encode()


def forms_of(command):
    """The further words by which a subcommand is run: `run` also has builders."""
    return ((), ("--builders", "1")) if command == "run" else ((),)


# Which refusals each subcommand has told without an explanation.
TOLD = set()


def by_each(runs, name, role, path, said):
    """A file is refused, and explained, by each subcommand that reads its role; by `run` without
    and with a builder, where standard input is a folder, and where it is a script. Each refusal is
    also told once without an explanation."""
    script, line = runs.put("script", "row te amd64\n"), said.splitlines(keepends=True)[0]
    for command in COMMANDS:
        if role not in cases.READ_BY[command]:
            continue
        for others in forms_of(command):
            words = words_of(command, {role: path}, "--explain", *others)
            for given in (None, script) if command == "run" else (None,):
                what = f"{name}, explained by {' '.join((command, *others))}"
                runs.compare(what, runs.end(words, given), 2, stderr=said)
            if (command, others, line) not in TOLD:
                TOLD.add((command, others, line))
                found = runs.end(words_of(command, {role: path}, *others))
                runs.compare(f"{name}, refused by {' '.join((command, *others))}", found, 2, stderr=line)


def made(runs):
    """Files with faults that are too odd, or too short, for examples/refused/."""
    for role, text, fault, why in MADE:
        said = said_of(role, fault, f"{role}: {why}")
        by_each(runs, f"{role} {text[:20]!r}", role, runs.put("made", text), said)
    for role, fields in RELATIONS.items():
        for field in fields:
            path = runs.put("made", f"{AMD64}{field}: xx (\n")
            why = f"a relation in {field} as Debian Policy 7.1 has it"
            why = f'{field} has "xx ("; wanted: {why}'
            why = f'{role}: stanza 1, line 1 has "Package: yy"; {why}'
            by_each(runs, f"{field} of {role}", role, path, said_of(role, "BadRelation", why))


def journals(runs):
    """Journals of examples that are refused, explained."""
    header = "a journal's header line with its newline, as transdesk journal 2"
    entry = "an entry that applies on the rows, or an undone command"
    for name, why in (
        ("empty-journal", f'line 1 has ""; wanted: {header}'),
        ("unlawful-journal", f'line 3 has "2 + dw foo/amd64 : libbar-dev"; wanted: {entry}'),
    ):
        case = cases.Case("run", name)
        found = runs.end([*case.words(), "--explain"], case.input())
        said = case.read("stderr") + f"journal: {why}\n".encode()
        runs.compare(f"the journal of {name}, explained", found, 2, stderr=said)
        found = runs.end([*case.words(), "--explain", "--builders", "1"], case.input())
        runs.compare(f"the journal of {name} beside a builder, explained", found, 2, stderr=said)
        found = runs.end([*case.words(), "--builders", "1"], case.input())
        runs.compare(f"the journal of {name} beside a builder", found, 2, stderr=case.read("stderr"))
    words = ["run", *cases.options(cases.archive("foobar")), "--explain", "--builders", "1"]
    for line in ("2 - claim=1 foo/amd64", "2 + bp=5 zz/amd64"):
        path = runs.put("made", f"transdesk journal 2\n1 + nmu foo/amd64\n{line}\n")
        found = runs.end([*words, f"--journal={path}"])
        said = said_of("journal", "Unlawful", f'journal: line 3 has "{line}"; wanted: {entry}')
        runs.compare(f"a journal with {line} beside a builder, explained", found, 2, stderr=said)


def outcomes(runs):
    """Lines of outcomes with nothing after the key, with keys or outcomes that are none, with other marks,
    and with a text that only a wait may have. A byte order mark may also be the file's first character."""
    words = ["run", *cases.options(cases.archive("foobar")), "--explain", "--builders", "1"]
    marked = "\ufefffoo/amd64 built"
    lines = ("foo/amd64 ", "foo/amd64/x built", "/amd64 built", "foo/ built", "foo_1.2-3/amd64 built", marked,
             "foo/amd64\tbuilt", "  ", "foo/amd64 failed", "foo/amd64 waits: libx", "foo/amd64 waits :",
             "foo/amd64 attempted : libx", "foo/amd64 givenback : libx", "foo/amd64 built # libx")
    for at, text, line in ((1, marked, marked), *((2, f"foo/amd64 built\n{line}", line) for line in lines)):
        path = runs.put("made", f"{text}\n")
        found = runs.end([*words, f"--outcomes={path}"])
        shown = line.replace("\t", "\\x09")
        why = f'outcomes: line {at} has "{shown}"; wanted: how a build ends, as KEY OUTCOME'
        what = f"outcomes with {shown} on line {at}"
        runs.compare(what, found, 2, stderr=said_of("outcomes", "BadLine", why))


def long_texts(runs):
    """A line of a million bytes, as an input and as an index, and an input that is too long."""
    path = runs.put("long", b"z" * LONG)
    row = f'input: line 1 has "{SHOWN}"...; wanted: a row, as KEY STATE PRIORITY NUMBER'
    found = runs.end(["simulate", "--explain"], path)
    runs.compare("a line of 1000000 bytes, explained", found, 2,
                 stderr=said_of("input", "BadLine", row))
    for role in ("packages", "sources"):
        what = f"{role} of 1000000 bytes without a colon"
        found = runs.end(words_of("check", {role: path}))
        runs.compare(what, found, 2, stderr=said_of(role, "Stanza"))
    field = f'packages: line 1 has "{SHOWN}"...; wanted: a colon behind the name of the field'
    found = runs.end(words_of("check", {"packages": path}, "--explain"))
    runs.compare("packages of 1000000 bytes without a colon, explained", found, 2,
                 stderr=said_of("packages", "Stanza", field))
    too_long, no_text = runs.put("too-long", bytes(1_048_577)), runs.put("no-text", b"\xff")
    most = b"input: wanted: standard input of at most 1048576 bytes\n"
    text = said_of("input", "NotText", "input: wanted: a text in UTF-8")
    for words in (["simulate"], words_of("run", {}), words_of("run", {}, "--builders", "1")):
        found = runs.end([*words, "--explain"], too_long)
        runs.compare(f"an input of {words[0]} too long, explained", found, 2, stderr=TOO_LONG + most)
        found = runs.end([*words, "--explain"], no_text)
        runs.compare(f"an input of {words[0]} that is no text, explained", found, 2, stderr=text)


def packed(runs):
    """Files that are still packed. Of an unknown packing only the text is said that is wanted."""
    text = AMD64.encode()
    for what, content in (
        ("gzip", gzip.compress(text)),
        ("xz", lzma.compress(text)),
        ("zstd", b"\x28\xb5\x2f\xfd" + text),
        ("bzip2", bz2.compress(text)),
        (None, b"\xfd7zXZ" + text),
    ):
        path = runs.put("packed", content)
        why = "wanted: a text in UTF-8"
        if what:
            why = f'"{path}" is packed by {what}; {why}; unpack it first'
        for role in cases.READ_BY["run"]:
            said = said_of(role, "NotText", f"{role}: {why}")
            by_each(runs, f"{role} packed by {what}", role, path, said)


def odd_paths(runs):
    """A packed file behind a link, five bytes of which xz has six, and paths that aren't plain."""
    runs.put("packed", gzip.compress(AMD64.encode()))
    os.symlink("packed", f"{runs.room}/packed-link")
    why = "wanted: a text in UTF-8"
    for path, more in (("packed-link", f'"packed-link" is packed by gzip; {why}; unpack it first'),
                       (runs.put("five", b"\xfd7zXZ"), why)):
        found = runs.end(words_of("check", {"archs": path}, "--explain"))
        runs.compare(f"{path} as a table", found, 2, stderr=said_of("archs", "NotText", f"archs: {more}"))
    for name in ("a table", "\u00fc"):
        path = runs.put(name, cases.read(WAVES["archs"]))
        found = runs.end(words_of("check", {"archs": path}))
        runs.compare(f"a file with the name {name}", found, 0, cases.Case("check", "waves").read("stdout"))


def unread(role, path, why=None):
    """What is said of a file that can't be read, and of why, if that is known."""
    more = [f'{role}: "{path}" {why}'] if why else []
    return said_of(role, "cannot read", *more)


NOWHERE = "isn't there; wanted: the path of a file that is there"
FOLDER = "is a folder; wanted: a file, and no folder"


def not_read(runs):
    """Tables of architectures that can't be read, explained. The last four have no reason that is
    said: a device without an end, a file whose reads fail, a link to itself, a name too long."""
    with open(runs.put("endless", b""), "wb") as it:
        it.truncate(1_073_741_825)
    os.chmod(runs.put("secret", "amd64 linux amd64\n"), 0)
    os.symlink("loop", f"{runs.room}/loop")
    reasons = {
        runs.room: FOLDER,
        "nowhere": NOWHERE,
        "secret/in": NOWHERE,
        "endless": "is too long; wanted: a file of at most 1073741824 bytes",
        "secret": "may not be read; wanted: a file that may be read",
        "/dev/zero": None,
        "/proc/self/mem": None,
        "loop": None,
        "0" * 300: None,
    }
    if os.access(f"{runs.room}/secret", os.R_OK):
        # (root may read each; run-streams asks as somebody else)
        del reasons["secret"]
    if not os.path.exists("/proc/self/mem"):
        print("note: /proc isn't mounted: a file whose reads fail is left out")
        del reasons["/proc/self/mem"]
    os.symlink("there", f"{runs.room}/dangling")
    os.symlink(".", f"{runs.room}/folder-link")
    reasons |= {"dangling": NOWHERE, "folder-link": FOLDER}
    for path, why in reasons.items():
        changed = {"archs": path, "packages": "nowhere", "sources": "nowhere"}
        found = runs.end(words_of("check", changed, "--explain"))
        runs.compare(f"{path[:20]}, not read and explained", found, 5, stderr=unread("archs", path, why))
    for path in ("endless", "0" * 300):
        for command in COMMANDS:
            for role in cases.READ_BY[command]:
                found = runs.end(words_of(command, {role: path}, "--explain"))
                runs.compare(f"{path[:20]} as {role} of {command}, explained", found, 5,
                             stderr=unread(role, path, reasons[path]))


def missing(runs):
    """Files that aren't there, are folders, or are no text, explained: each of each subcommand."""
    no_text = runs.put("no-text", b"\xff")
    for command in COMMANDS:
        for role in cases.READ_BY[command]:
            for others in forms_of(command):
                what = f"{role} of {' '.join((command, *others))}"
                for path, why in (("nowhere", NOWHERE), (runs.room, FOLDER)):
                    found = runs.end(words_of(command, {role: path}, "--explain", *others))
                    runs.compare(f"{what}, {why}, explained", found, 5, stderr=unread(role, path, why))
                found = runs.end(words_of(command, {role: no_text}, "--explain", *others))
                said = said_of(role, "NotText", f"{role}: wanted: a text in UTF-8")
                runs.compare(f"{what} is no text, explained", found, 2, stderr=said)


def two_faults(runs, command, roles, first, second, fit):
    """Two files of a subcommand are faulty: which is named."""
    unfit, folder = fit["unfit"], runs.room
    ends = [
        (2, f"{first}: {UNFIT.get(first, 'BadLine')}", unfit, unfit),
        (2, f"{first}: NotText", NO_TEXT, folder),
        (5, f"{first}: cannot read", "nowhere", NO_TEXT),
    ]
    if first != second:
        ends.append((2, f"{second}: NotText", unfit, NO_TEXT))
    others = ["--builders", "1"] if command == "run" else NEEDED.get(command, ())
    for status, line, of_first, of_second in ends:
        files = {role: fit.get(role) or WAVES[role] for role in roles}
        files.update({second: of_second})
        files.update({first: of_first})
        found = runs.end([command, *others, *cases.options(files)])
        said = f"transdesk: {line}\n".encode()
        runs.compare(f"{line}, of {first} and {second} of {command}", found, status, stderr=said)


def first_of_two(runs):
    """Of two faulty files the first is named: those that can't be read or are no text, in the order
    in which files are read, and after all of these the unfit ones, in the order in which they are
    looked at. All of that comes before standard input, which is a folder here."""
    empty = runs.put("empty", b"")
    fit = {
        "state": empty,
        "outcomes": empty,
        "journal": runs.put("fit-journal", "transdesk journal 2\n"),
        "unfit": runs.put("unfit", "Package: foo\n"),
    }
    for command, roles in (
        ("check", cases.INDICES),
        ("track", (*cases.INDICES, "state", "tracker")),
        ("plan", (*cases.INDICES, "state", "tracker")),
        ("run", (*cases.INDICES, "state", "tracker", "outcomes", "journal")),
        ("desk", (*cases.INDICES, "state", "tracker")),
    ):
        for at, first in enumerate(roles):
            for second in roles[at:]:
                two_faults(runs, command, roles, first, second, fit)


def of_the_wrong_kind(runs):
    """A file stands where that of another role belongs."""
    lines = cases.read(WAVES["sources"]).splitlines(keepends=True)
    versionless = b"".join(line for line in lines if not line.startswith(b"Version"))
    versionless = runs.put("versionless", versionless)
    archs, sources = WAVES["archs"], WAVES["sources"]
    for what, command, changed, role, fault in (
        ("a table that is none", "check", {"archs": sources}, "archs", "BadLine"),
        ("a Packages index that is none", "check", {"packages": archs, "sources": archs},
         "packages", "Stanza"),
        ("sources without their versions", "check", {"sources": versionless},
         "sources", "MissingField"),
        ("sources that are no text", "check", {"sources": NO_TEXT}, "sources", "NotText"),
        ("a tracker that is none", "waves", {"tracker": sources}, "tracker", "Syntax"),
    ):
        found = runs.end(words_of(command, changed))
        runs.compare(what, found, 2, stderr=said_of(role, fault))


def strange_rows(runs):
    """Rows that the archive doesn't have come before the tracker and before standard input."""
    strange = runs.put("strange", "zz/amd64 Installed 0 0\n")
    lines = "\nte/amd64 Failed 0 0\nzz/amd64 Installed 0 0\naa/amd64 Installed 0 0\n"
    strangers = runs.put("strangers", lines)
    refused = said_of("state", "NoSuchRow")
    for command in ("track", "plan", "desk"):
        found = runs.end(words_of(command, {"state": strange}))
        runs.compare(f"a row that the archive of {command} hasn't", found, 2, stderr=refused)
    why = 'state: line 3 has "zz/amd64 Installed 0 0"; wanted: a row that the indices give\n'
    found = runs.end(words_of("track", {"state": strangers}, "--explain"))
    runs.compare("the first line of a row that the archive hasn't", found, 2,
                 stderr=refused + why.encode())
    foobar = cases.options(cases.archive("foobar"))
    found = runs.end(["run", *foobar, "--state", strange])
    runs.compare("a row that the archive of a run hasn't", found, 2, stderr=refused)
    # Outcomes are read without builders too, but not looked at.
    found = runs.end(["run", *foobar, "--outcomes", NO_TEXT], runs.put("row", "row foo amd64\n"))
    runs.compare("outcomes that are no text", found, 2, stderr=said_of("outcomes", "NotText"))


def refused_beside_scripts(runs):
    """State files and a pattern that are refused by `run`, with a script that can be read, and with
    one that can't."""
    files = cases.archive("foobar")
    row = "wanted: a row, as KEY STATE PRIORITY NUMBER"
    faults = [
        ("state", "x\n", "BadLine", f'line 1 has "x"; {row}'),
        ("state", "foo/amd64 Failed 0 0\nfoo/amd64 Failed 0 0\n", "Twice",
         'line 2 has "foo/amd64 Failed 0 0"; wanted: a key that no line above has'),
        ("state", "foo/amd64 Building=1 0 0\n", "NotOpening",
         'line 1 has "foo/amd64 Building=1 0 0"; wanted: a state other than Building'),
        ("state", "zz/amd64 Installed 0 0\n", "NoSuchRow",
         'line 1 has "zz/amd64 Installed 0 0"; wanted: a row that the indices give'),
        ("tracker", "is_affected = .a ~ /x(?!1)/;", "BadPattern",
         'byte 19, line 1, column 20 has "/x(?!1)/;"; wanted: '
         "a pattern that regex takes: no look-around, back reference or open bracket"),
    ]
    scripts = {
        "a script": runs.put("script", "row foo amd64\n"),
        "a script that is too long": runs.put("too-long", bytes(1_048_577)),
        "a script that is no text": runs.put("no-text", b"\xff"),
    }
    for role, text, fault, why in faults:
        path = runs.put("made", text)
        said = said_of(role, fault, f"{role}: {why}")
        for others in forms_of("run"):
            words = ["run", "--explain", *others, *cases.options({**files, role: path})]
            for what, script in scripts.items():
                what = f"{fault} of {role}, {what}, {' '.join(others)}"
                runs.compare(what, runs.end(words, script), 2, stderr=said)


def unspoken(runs):
    """What ends a run is said in its own line, if an explanation is asked for, too: output that
    can't be written, and standard input that can't be read."""
    if os.path.exists("/dev/full"):
        with open("/dev/full", "wb") as full:
            for command in ("check", "track", "waves", "plan"):
                found = runs.end(words_of(command, {}, "--explain"), stdout=full)
                runs.compare(f"{command} --explain to a full disk", found, 5, stderr=UNWRITTEN)
            script = runs.put("script", "row te amd64\n")
            for others in forms_of("run"):
                found = runs.end(words_of("run", {}, "--explain", *others), script, stdout=full)
                runs.compare("run --explain to a full disk", found, 5, stderr=UNWRITTEN)
            found = runs.end(["simulate", "--explain"], runs.put("steps", ""), stdout=full)
            runs.compare("simulate --explain to a full disk", found, 5, stderr=UNWRITTEN)
    for words in (["simulate"], *(words_of("run", {}, *others) for others in forms_of("run"))):
        found = runs.end([*words, "--explain"])
        runs.compare(f"{words[0]} --explain of a folder", found, 5, stderr=UNREAD)


def run_all(runs):
    for group in (made, packed, odd_paths, journals, outcomes, long_texts, not_read, missing,
                  first_of_two, of_the_wrong_kind, strange_rows, refused_beside_scripts, unspoken):
        group(runs)
    if os.path.exists(f"{runs.room}/{DESK}"):
        runs.differs("a desk's file is made though another file is refused")
