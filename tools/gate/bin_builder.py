"""Runs bin/builder at desks of its own, with small commands, and compares what it does."""

import concurrent.futures
import contextlib
import fcntl
import os
import re
import shutil
import signal
import subprocess
import tempfile
import time

import cases
from cases import TOP

FOOBAR = cases.archive("foobar")
SCRIPT = f"{TOP}/bin/builder"
SECONDS = 120
# A command that is stopped in the middle: it says when it has begun.
SLEEPS = ["sh", "-c", "touch begun; exec sleep 60"]


class Desk:
    """A desk in a folder, and builders at it; they run in that folder."""

    def __init__(self, runs, folder, files):
        self.runs, self.folder = runs, folder
        for role, path in files.items():
            shutil.copy(path, f"{folder}/{role}")

    def ask(self, *lines):
        """The answers to some lines."""
        words = [self.runs.world["PROGRAM"], "desk", "--folder", self.folder, "--wait"]
        words += [f"--journal={self.folder}/journal"]
        given = "".join(f"{line}\n" for line in lines)
        done = subprocess.run(words, input=given, capture_output=True, text=True, timeout=SECONDS)
        return done.stdout.splitlines()

    def begin(self, words, command, **how):
        """A builder that has begun."""
        pipes = {"stdout": subprocess.PIPE, "stderr": subprocess.PIPE, "text": True}
        pipes |= {"env": self.runs.world, "cwd": self.folder, "start_new_session": True}
        return subprocess.Popen([SCRIPT, self.folder, *words, "--", *command], **pipes | how)

    def build(self, what, words, command, status, out, err=None, **how):
        """Compares a builder's end: its status, what it writes, and what it says."""
        self.ended(what, self.begin(words, command, **how), status, out, err)

    def ended(self, what, process, status, out, err=None):
        found = process.communicate(timeout=SECONDS)
        self.same(f"{what}: status", status, process.returncode)
        self.same(f"{what}: standard output", out, found[0])
        if err is not None:
            self.same(f"{what}: standard error", err, found[1])

    def same(self, what, wanted, found):
        self.runs.ran += 1
        if wanted != found:
            self.runs.differs(f"builder, {what}", wanted, found)

    def row(self, what, key, wanted):
        """Compares a row with what follows its key."""
        self.same(f"{what}: the row", [f"{key} {wanted}"], self.ask(f"row {key.replace('/', ' ')}"))

    def wait(self, name):
        """Waits for a file that a command makes, and removes it."""
        until(lambda: os.path.exists(f"{self.folder}/{name}"))
        os.remove(f"{self.folder}/{name}")

    def waits(self, process):
        """Waits until builder 1 heeds signals: its file has its process."""
        path = f"{self.folder}/builder-1"
        until(lambda: os.path.exists(path) and f"{process.pid}\n" == open(path).read())

    def wait_for_number(self):
        """Waits until nothing of builder 1 runs."""
        with open(f"{self.folder}/builder-1", "rb") as file:
            fcntl.flock(file, fcntl.LOCK_EX)


def until(is_so):
    """Waits until something is so."""
    end = time.monotonic() + SECONDS
    while not is_so() and time.monotonic() < end:
        time.sleep(0.01)


@contextlib.contextmanager
def desk_of(runs, *lines, files=FOOBAR):
    """A desk over an archive, at which some lines were said."""
    with tempfile.TemporaryDirectory() as folder:
        desk = Desk(runs, folder, files)
        desk.ask(*lines)
        yield desk


def shell(text):
    return ["sh", "-c", text]


def said(text):
    return f"builder: {text}\n"


FOO = "foo/amd64 1.2-3+b1"
NMU = 'nmu foo . ANY . -m "Rebuild against libbar2" --extra-depends "libbar-dev (>= 2) : x"'
ONCE = ["1", "amd64", "--once"]


def statuses(runs):
    """Each status of a command, and each other way in which it may end."""
    with desk_of(runs, "nmu foo . ANY", "bp 5 foo . i386") as desk:
        nothing = said("nothing to build on amd64")
        desk.build("0", ["1", "amd64"], ["true"], 0, f"{FOO} claimed\n{FOO} built\n", nothing)
        desk.row("0", "foo/amd64", "Built 0 1")
        desk.build("nothing", ONCE, ["true"], 0, "", nothing)
        desk.ask("gb foo . amd64")
        desk.build("1", ["64", "amd64"], ["false"], 0, f"{FOO} claimed\n{FOO} attempted\n", nothing)
        desk.row("1", "foo/amd64", "Build-Attempted 0 1")
        desk.ask("gb foo . amd64")
        out = f"{FOO} claimed\n{FOO} givenback\n"
        left = said("nothing to build on amd64, except what was given back")
        desk.build("2", ["1", "amd64"], shell("exit 2"), 0, out, left)
        desk.build("2, once", ONCE, shell("exit 2"), 0, out, "")
        desk.row("2", "foo/amd64", "Needs-Build 0 1")
        others = [
            (shell("exit 4"), "sh ended with status 4, which says nothing"),
            (shell("kill -9 $$"), "sh was killed by KILL"),
            (["./absent"], "./absent can't be run: No such file or directory"),
            (["./archs"], "./archs can't be run: Permission denied"),
        ]
        for command, why in others:
            desk.build(why, ["1", "amd64"], command, 1, out, said(why))
            desk.row(why, "foo/amd64", "Needs-Build 0 1")
        # (words of COMMAND aren't the builder's)
        out = f"{FOO} claimed\n{FOO} built\n"
        desk.build("--help", ONCE, [*shell('echo "$0"'), "--help"], 0, out, "--help\n")


def waiting(runs):
    """Status 3, with a relation, without, and with a text that is none."""
    waits = "foo/amd64 waits, but "
    counts = "it counts as attempted"
    relation = "aa (>= 2), bb | cc"
    table = [
        ("aa (>= 2),\n bb | cc", f"waits : {relation}", f"Dep-Wait 0 1 : {relation}", ""),
        ("", "attempted", "Build-Attempted 0 1", f"TRANSDESK_WAITS has no relation: {counts}"),
        ("aa (> 2", "attempted", "Build-Attempted 0 1", f"for no relation (BadRelation): {counts}"),
        (r"\377", "attempted", "Build-Attempted 0 1", f"for no relation (BadRelation): {counts}"),
    ]
    with desk_of(runs, "nmu foo . ANY") as desk:
        for text, word, state, why in table:
            command = shell(f'printf "{text}" > "$TRANSDESK_WAITS"; exit 3')
            err = said(f"{waits}{why}") if why else ""
            desk.build(text, ONCE, command, 0, f"{FOO} claimed\n{FOO} {word}\n", err)
            desk.row(text, "foo/amd64", state)
            desk.ask("gb foo . amd64")


def environments(runs):
    """What a command has in its environment, and where what it writes goes."""
    names = "SOURCE ARCH VERSION NUMBER MESSAGE EXTRA".split()
    told = "".join(f"$TRANSDESK_{name}\\n" for name in names)
    with desk_of(runs, NMU) as desk:
        command = shell(f'printf "{told}"; test -f "$TRANSDESK_WAITS" && cat')
        err = "foo\namd64\n1.2-3+b1\n1\nRebuild against libbar2\nlibbar-dev (>= 2) : x\n"
        # (that extra is no relation, so the desk has refused it)
        desk.ask(NMU.replace(" : x", ""))
        out = f"{FOO} claimed\n{FOO} built\n"
        desk.build("environment", ONCE, command, 0, out, err.replace(" : x", ""))
    with desk_of(runs, "nmu foo . ANY") as desk:
        # (next-desk writes this file)
        asked = f"{desk.folder}/asked"
        with open(asked, "w", encoding="ascii") as file:
            file.write("foo/amd64 waiting Needs-Build : of yesterday\n")
        command = shell('echo "$TRANSDESK_MESSAGE"')
        desk.build("an earlier message", ONCE, command, 0, out, "of yesterday\n")
        desk.ask("gb foo . amd64")
        with open(asked, "wb") as file:
            file.write(b"\xff")
        why = said(f"{asked}: byte 0 is no text (UTF-8)")
        given_back = f"{FOO} claimed\n{FOO} givenback\n"
        desk.build("an `asked` that is no text", ONCE, command, 2, given_back, why)
    with desk_of(runs, "nmu foo . ANY . -m 'ä : ;3 b'") as desk:
        world = {**runs.world, "LC_ALL": "C", "TRANSDESK_EXTRA": "old"}
        out, err = f"{FOO} claimed\n{FOO} built\n", "ä : ;3 b\n\n"
        command = shell('printf "%s\\n%s\\n" "$TRANSDESK_MESSAGE" "$TRANSDESK_EXTRA"')
        desk.build("a message", ONCE, command, 0, out, err, env=world)


def stopped(runs):
    """A builder is stopped in the middle: it stops its command, and gives the row back."""
    out = f"{FOO} claimed\n{FOO} givenback\n"
    with desk_of(runs, "nmu foo . ANY") as desk:
        for number in (signal.SIGTERM, signal.SIGINT, signal.SIGHUP):
            name = number.name.removeprefix("SIG")
            process = desk.begin(["1", "amd64"], SLEEPS)
            desk.wait("begun")
            process.send_signal(number)
            desk.ended(name, process, 128 + number, out, said(f"stopped by {name}"))
            desk.row(name, "foo/amd64", "Needs-Build 0 1")
            desk.wait_for_number()
        # a command that doesn't end by itself
        stubborn = shell("trap 'touch told' TERM; touch begun; while :; do sleep 1; done")
        process = desk.begin(["1", "amd64"], stubborn)
        desk.wait("begun")
        process.send_signal(signal.SIGTERM)
        desk.wait("told")
        process.send_signal(signal.SIGTERM)
        # (the shell says that its `sleep` was stopped, too)
        desk.ended("TERM twice", process, 143, out)
        # a builder that has nothing to build
        desk.ask("dw foo . ANY . -m bb")
        process = desk.begin(["1", "amd64", "--poll", "60"], ["true"])
        desk.waits(process)
        process.send_signal(signal.SIGTERM)
        desk.ended("TERM while it polls", process, 143, "", said("stopped by TERM"))
        # someone else has the desk
        with open(f"{desk.folder}/journal", "rb") as journal:
            fcntl.flock(journal, fcntl.LOCK_EX)
            process = desk.begin(["1", "amd64"], ["true"])
            desk.waits(process)
            time.sleep(0.2)
            process.send_signal(signal.SIGTERM)
            desk.ended("TERM before the desk", process, 143, "", said("stopped by TERM"))


def cut_off(runs):
    """A builder is killed in the middle; the next one with its number finishes what it had."""
    with desk_of(runs, "nmu foo . ANY", "bp 5 bar . amd64") as desk:
        text = "trap 'kill $!; touch ended; exit' TERM; touch begun; sleep 60 & wait"
        process = desk.begin(["1", "amd64"], shell(text))
        desk.wait("begun")
        process.kill()
        desk.ended("KILL", process, -9, f"{FOO} claimed\n")
        desk.wait("ended")
        desk.wait_for_number()
        desk.row("KILL", "foo/amd64", "Building=1 0 1")
        desk.build("another's", ["2", "amd64"], ["true"], 0, "", said("nothing to build on amd64"))
        why = "builder 1 has foo/amd64: it isn't of i386"
        desk.build("another architecture", ["1", "i386"], ["true"], 2, "", said(why))
        why = "foo/amd64 was cut off: it is built again"
        desk.build("the next", ONCE, ["true"], 0, f"{FOO} claimed\n{FOO} built\n", said(why))
        desk.row("the next", "foo/amd64", "Built 0 1")
        # someone ends the build by hand
        desk.ask("gb foo . amd64")
        process = desk.begin(ONCE, shell("touch begun; sleep 0.5"))
        desk.wait("begun")
        desk.ask("finish 1 attempted")
        why = "foo/amd64: someone else told the desk that its build has ended"
        desk.ended("ended by hand", process, 0, f"{FOO} claimed\n", said(why))


def several(runs):
    """Builders at one desk, each with several rows: none is built twice. A number is taken once."""
    sources = [f"s{number}" for number in range(12)]
    stanza = "Package: {}\nVersion: 1\nArchitecture: any\nBinary: {}\nFormat: 1.0\n\n"
    with tempfile.TemporaryDirectory() as room:
        with open(f"{room}/sources", "w", encoding="ascii") as file:
            file.write("".join(stanza.format(name, name) for name in sources))
        open(f"{room}/packages", "w", encoding="ascii").close()
        files = {role: f"{room}/{role}" for role in ("sources", "packages")}
        command = shell('echo "$TRANSDESK_SOURCE" >> built; sleep 0.05')
        with desk_of(runs, files={**files, "archs": FOOBAR["archs"]}) as desk:
            with concurrent.futures.ThreadPoolExecutor() as pool:
                begun = [desk.begin([str(number), "amd64"], command) for number in (1, 2, 3)]
                ends = list(pool.map(lambda it: it.communicate(timeout=SECONDS), begun))
            desk.same("several: statuses", [0, 0, 0], [it.returncode for it in begun])
            with open(f"{desk.folder}/built", encoding="ascii") as file:
                desk.same("several: the rows", sorted(sources), sorted(file.read().split()))
            lines = sum(len(re.findall("^s[0-9]+/amd64 1 built$", out, re.M)) for out, _ in ends)
            desk.same("several: the lines", len(sources), lines)
    with desk_of(runs, "nmu foo . ANY") as desk:
        process = desk.begin(ONCE, SLEEPS)
        desk.wait("begun")
        where = f"{desk.folder}/builder-1"
        why = f"{where}: builder 1 is at work there already (process {process.pid}, or what it ran)"
        desk.build("a number twice", ["1", "i386"], ["true"], 6, "", said(why))
        process.send_signal(signal.SIGTERM)
        desk.ended("the first", process, 143, f"{FOO} claimed\n{FOO} givenback\n")


def faults(runs):
    """Bad words; folders that are no desk's; outputs that can't be written; a full disk."""
    with desk_of(runs, "nmu foo . ANY") as desk:
        bad = ("0 amd64", "65 amd64", "01 amd64", "1", "1 amd64 --poll 0", "1 amd64 x", "1 --x")
        for words in map(str.split, bad):
            desk.build(f"{words}", words, ["true"], 3, "")
        desk.build("no command", ["1", "amd64"], [], 3, "")
        desk.build("mips", ["1", "mips"], ["true"], 2, "", said("mips: the desk says UnknownArch"))
        os.mkdir(f"{desk.folder}/builder-5")
        why = said(f"{desk.folder}/builder-5: Is a directory")
        desk.build("no lock", ["5", "amd64"], ["true"], 5, "", why)
        with open("/dev/full", "wb") as full:
            process = desk.begin(ONCE, ["true"], stdout=full)
            process.communicate(timeout=SECONDS)
        desk.same("/dev/full: status", 5, process.returncode)
        desk.row("/dev/full", "foo/amd64", "Needs-Build 0 1")
        inner = " ".join([f"'{SCRIPT}' . 1 amd64 -- true"])
        for redirection in (f"{inner} >&-", f"{inner} | true; exit ${{PIPESTATUS[0]}}"):
            how = {"cwd": desk.folder, "env": runs.world, "capture_output": True}
            done = subprocess.run(["bash", "-c", redirection], **how)
            desk.same(f"{redirection}: status", 5, done.returncode)
            desk.row(redirection, "foo/amd64", "Needs-Build 0 1")
        # the index has changed
        shutil.copy(cases.archive("steps")["sources"], f"{desk.folder}/sources")
        why = said(f"{desk.folder}: journal: OtherRows")
        desk.build("other rows", ONCE, ["true"], 2, "", why)
        os.remove(f"{desk.folder}/sources")
        why = said(f"{desk.folder}: it is no desk's folder: it has no sources")
        desk.build("no desk", ONCE, ["true"], 2, "", why)

def full_disk(runs):
    """The desk can't write its line: when a row is claimed, and when its build has ended."""
    with desk_of(runs, "nmu foo . ANY") as desk:
        program = f"{desk.folder}/limited"
        with open(program, "w", encoding="ascii") as file:
            # (while `full` is there no file gets longer than that)
            limit = "[ ! -e full ] || set -- prlimit --fsize=$(stat -c %s journal)"
            given = f"exec \"$@\" '{runs.world['PROGRAM']}' desk --folder=. --wait"
            file.write(f"#!/bin/sh\ntrap '' XFSZ\nset --\n{limit}\n{given}\n")
        os.chmod(program, 0o755)
        world = {**runs.world, "PROGRAM": program}
        unwritten = f"{desk.folder}: journal: cannot write"
        open(f"{desk.folder}/full", "wb").close()
        desk.build("full, a claim", ONCE, ["true"], 5, "", said(unwritten), env=world)
        desk.row("full, a claim", "foo/amd64", "Needs-Build 0 1")
        os.remove(f"{desk.folder}/full")
        why = said(f"{unwritten}; foo/amd64 may stay with builder 1, not 'built'")
        command = ["touch", "full"]
        desk.build("full, an end", ONCE, command, 5, f"{FOO} claimed\n", why, env=world)
        desk.row("full, an end", "foo/amd64", "Building=1 0 1")
        os.remove(f"{desk.folder}/full")
        why = said("foo/amd64 was cut off: it is built again")
        out = f"{FOO} claimed\n{FOO} built\n"
        desk.build("room again", ONCE, ["true"], 0, out, why, env=world)


def run_all(runs):
    """All of it."""
    for group in (statuses, waiting, environments, stopped, cut_off, several, faults, full_disk):
        group(runs)
