"""Standard input and output that fail, inputs as long as they may be, and small runs by hand."""

import os
import resource
import select
import signal
import subprocess
import tty

import cases
from refusals import AFFECTS_NOTHING, NO_TEXT, WAVES, said_of, words_of
from runs import SECONDS, TOO_LONG, UNREAD, UNWRITTEN

FOOBAR = ["run", *cases.options(cases.archive("foobar"))]
SIMULATED = cases.Case("simulate", "first-undo").path("input")
MOST = 1_048_576
# The room of a file that has room for a block only.
BLOCK = 512


def indices():
    """The words for the indices of `waves`."""
    return cases.options({role: WAVES[role] for role in cases.INDICES})


def not_read(runs):
    """A folder can be opened, and not read. A script is looked at as any standard input is."""
    for what, words in (
        ("an input", ["simulate"]),
        ("a script", FOOBAR),
        ("a crew's script", [*FOOBAR, "--builders", "1"]),
    ):
        found = runs.end(words, runs.room)
        runs.compare(f"{what} that can't be read", found, 5, stderr=UNREAD)
    said = said_of("input", "NotText")
    runs.compare("a script that is no text", runs.end(FOOBAR, NO_TEXT), 2, stderr=said)


def not_read_beside_files(runs):
    """A script that can't be read, is too long or no text, with each option of a run; a fault of the
    journal comes before."""
    too_long = runs.put("too-long", b"\n" * (MOST + 1))
    files = {"tracker": runs.put("affects-nothing", AFFECTS_NOTHING)}
    for role, text in (("state", "bar/amd64 Failed 0 0\n"), ("outcomes", "foo/amd64 built\n"),
                       ("journal", "transdesk journal 2\n1 + nmu foo/amd64\n")):
        files[role] = runs.put(f"fit-{role}", text)
    bad = {fault: runs.put(fault, f"transdesk journal 2\n1 + {entry} foo/amd64\n")
           for fault, entry in (("BadLine", "x"), ("Unlawful", "gb"))}
    for others in ((), ("--builders", "1")):
        words = [*FOOBAR, "--suite", "sid", *others]
        for what, script, status, said in (
            ("a script that can't be read", runs.room, 5, UNREAD),
            ("a script too long", too_long, 2, TOO_LONG),
            ("a script that is no text", NO_TEXT, 2, said_of("input", "NotText")),
        ):
            found = runs.end([*words, *cases.options(files)], script)
            runs.compare(f"{what}, with all options of a run", found, status, stderr=said)
        for fault, path in bad.items():
            found = runs.end([*words, f"--journal={path}"], too_long)
            runs.compare(f"a journal that is {fault}, and a script too long", found, 2,
                         stderr=said_of("journal", fault))


def has_terminals():
    """Whether there are terminals here: in a chroot /dev/pts may not be mounted."""
    try:
        for end in os.openpty():
            os.close(end)
    except OSError:
        return False
    return True


def breaks_off(runs):
    """A terminal can be read up to where its other end was closed."""
    if not has_terminals():
        print("note: there are no terminals here: inputs that break off are left out")
        return
    crew = [*FOOBAR, "--builders", "1"]
    for what, words, path in (
        ("an input", ["simulate"], SIMULATED),
        ("a script", FOOBAR, cases.Case("run", "rebuild").input()),
        ("a crew's script", crew, cases.Case("run", "crew").input()),
    ):
        ours, theirs = os.openpty()
        tty.setraw(theirs)
        os.write(theirs, cases.read(path))
        os.close(theirs)
        found = runs.end(words, ours)
        os.close(ours)
        runs.compare(f"{what} that breaks off", found, 5, stderr=UNREAD)


def full_disk(runs):
    row = runs.put("row", "row foo amd64\n")
    for what, words, path in (
        ("a full disk", ["simulate"], SIMULATED),
        ("a check on a full disk", words_of("check", {}), None),
        ("a plan on a full disk", words_of("plan", {}), None),
        ("a run on a full disk", ["run", *indices()], row),
    ):
        with open("/dev/full", "wb") as full:
            found = runs.end(words, path, stdout=full)
        runs.compare(what, found, 5, stderr=UNWRITTEN)


def closed_pipe(runs):
    ours, theirs = os.pipe()
    os.close(ours)
    found = runs.end(["simulate"], SIMULATED, stdout=theirs)
    os.close(theirs)
    runs.compare("a closed pipe", found, 5, stderr=UNWRITTEN)


def lengths(runs):
    """An input has at most 1,048,576 bytes, and may be empty."""
    empty = runs.put("empty", b"")
    longest = runs.put("longest", b"\n" * MOST)
    too_long = runs.put("too-long", b"\n" * (MOST + 1))
    rows = b"rows\n"
    runs.compare("the longest input", runs.end(["simulate"], longest), 0, rows)
    runs.compare("an input too long", runs.end(["simulate"], too_long), 2, stderr=TOO_LONG)
    no_text = runs.put("no-text", b"\xff" * (MOST + 1))
    found = runs.end(["simulate"], no_text)
    runs.compare("an input too long that is no text", found, 2, stderr=TOO_LONG)
    runs.compare("an empty input", runs.end(["simulate"], empty), 0, rows)
    runs.compare("the longest script", runs.end(FOOBAR, longest), 0)
    runs.compare("a script too long", runs.end(FOOBAR, too_long), 2, stderr=TOO_LONG)
    runs.compare("an empty script", runs.end(FOOBAR, empty), 0)
    words = ["run", *cases.options({role: empty for role in cases.INDICES})]
    runs.compare("an empty script over empty indices", runs.end(words, empty), 0)


def trackers(runs):
    """Trackers that affect nothing, or two sources only."""
    tracker = runs.put("affects-nothing", AFFECTS_NOTHING)
    found = runs.end(words_of("track", {"tracker": tracker}))
    counts = b"tracker T\naffected 0 good 0 bad 0 partial 0 unknown 0\n"
    runs.compare("a report of a tracker that affects nothing", found, 0, counts)
    found = runs.end(words_of("waves", {"tracker": tracker}))
    runs.compare("the waves of a tracker that affects nothing", found, 0)
    found = runs.end(words_of("plan", {"tracker": tracker}))
    runs.compare("the plan of a tracker that affects nothing", found, 0, b"# tracker T\n")
    text = "is_affected = .package ~ /^(pa|rc)$/; is_good = true; is_bad = true;\n"
    found = runs.end(words_of("waves", {"tracker": runs.put("affects-two", text)}))
    runs.compare("what isn't affected holds nothing up", found, 0, b"level 1\npa\nrc\n")


def by_hand(runs):
    """A rebuild takes a row's Installed from the report, and its undo gives it back; a suite that
    isn't the desk's."""
    report = cases.Case("track", "waves").read("stdout")
    lines = report.splitlines(keepends=True)
    lines[1] = lines[1].replace(b"installed 1", b"installed 0")
    lines[2] = lines[2].replace(b"Installed 0 0", b"Needs-Build 0 1")
    wanted = b"entry 1 takes qb/amd64\n" + b"".join(lines) + b"undone 1\n" + report
    script = runs.put("script", "nmu qb . amd64\nreport\nundo 1\nreport\n")
    found = runs.end(words_of("run", {}), script)
    runs.compare("a report of a level that is rebuilt", found, 0, wanted)
    script = runs.put("script", "gb foo . ANY . unstable\n")
    found = runs.end([*FOOBAR, "--suite", "sid"], script)
    runs.compare("a suite that isn't the desk's", found, 1, b"refused: UnknownSuite\n")


def heard(stream, count):
    """So many lines of a stream, or what came of them in a minute."""
    text = b""
    while text.count(b"\n") < count and select.select([stream], [], [], SECONDS)[0]:
        part = os.read(stream.fileno(), MOST)
        if not part:
            break
        text += part
    return text


def in_turn(runs):
    """Who writes to a desk only what its answers ask for: each whole line is answered before more
    is read, also lines that come in one piece, and a line that comes in two. What an answer tells is
    in the file by then."""
    case = cases.Case("desk", "first-session")
    path = f"{runs.room}/in-turn"
    words = [runs.program, *case.words(), f"--journal={path}"]
    turns = ((b"nmu foo . i386\n", 1, b"1 nmu foo/i386\n"), (b"claim 1 fo", 0, b"1 nmu foo/i386\n"),
             (b"o i386\n", 1, b"2 claim=1 foo/i386\n"),
             (b"finish 1 built\nready\n", 2, b"3 built=1 foo/i386\n"))
    answers = [b"entry 1 takes foo/i386\n", b"", b"entry 2 builds foo/i386 1.2-3+b2 2\n",
               b"entry 3 takes foo/i386\nnothing to build\n"]
    pipes = {"stdin": subprocess.PIPE, "stdout": subprocess.PIPE, "stderr": subprocess.PIPE}
    with subprocess.Popen(words, bufsize=0, **pipes) as desk:
        for (line, count, kept), answer in zip(turns, answers):
            desk.stdin.write(line)
            if heard(desk.stdout, count) != answer:
                runs.differs(f"a desk in turn: the answer to {line}")
                desk.kill()
                break
            if not cases.read(path).endswith(kept):
                runs.differs(f"a desk in turn: the file after {line}")
        said = desk.communicate(timeout=SECONDS)
    runs.compare("a desk in turn", (desk.returncode, *said), 0)


def limited():
    """A file may have a block from here on, and a write beyond it is refused."""
    signal.signal(signal.SIGXFSZ, signal.SIG_IGN)
    resource.setrlimit(resource.RLIMIT_FSIZE, (BLOCK, BLOCK))


def in_a_block(runs):
    """If a file has room for a block only, a front of the answers is written, and nothing after."""
    rows = "".join(f"foo{number}/amd64 Installed 0 0\n" for number in range(1, 101))
    rows, lines = runs.put("many-rows", rows), runs.put("many-lines", "row pa amd64\n" * 100)
    for what, words, path in (
        ("a simulation in a block", ["simulate"], rows),
        ("a run in a block", ["run", *indices()], lines),
        ("a crew's run in a block", ["run", *indices(), "--builders", "2"], lines),
    ):
        whole = runs.end(words, path)[1]
        with open(f"{runs.room}/block", "wb+") as block:
            how = {"restore_signals": False, "preexec_fn": limited}
            status, _, said = runs.end(words, path, stdout=block, **how)
            block.seek(0)
            wrote = block.read()
        if not wrote or wrote == whole:
            runs.differs(f"{what}: the whole, or nothing")
        runs.compare(what, (status, wrote, said), 5, whole[: len(wrote)], UNWRITTEN)


def run_all(runs):
    for group in (not_read, not_read_beside_files, breaks_off, full_disk, closed_pipe, lengths,
                  trackers, by_hand, in_turn, in_a_block):
        group(runs)
