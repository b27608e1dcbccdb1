"""A desk: the files of its folder, its rows, and calls by which it is asked.

    with open_desk("DIR") as desk:     # it is locked until the end
        rows = desk.rows()
        answer = desk.ask("claim 1 foo amd64")[0]
"""

import os
import subprocess
import typing

import script
from script import Fault

# The files that each archive has, and those that a desk's folder may have.
INDICES, OTHERS = ("archs", "packages", "sources"), ("state", "tracker")
ROLES = (*INDICES, *OTHERS)
# The greatest number of a builder.
BUILDERS = 64
# A line that no desk has, and its answer: they come after each line, to find its answer's end.
MARK, MARKED = ".", "refused: UnknownCommand"
# What a script of transdesk may have in all, and a line of a desk, with room to spare.
SCRIPT_BYTES = 1_000_000


class Row(typing.NamedTuple):
    """A row. `texts` is what follows its number: an extra, a dep-wait, both or neither."""

    key: str
    state: str
    priority: int
    number: int
    texts: str = ""

    @staticmethod
    def read(line):
        key, state, priority, number, *texts = line.split(" ", 4)
        return Row(key, state, int(priority), int(number), "".join(texts))

    def line(self):
        end = f" {self.texts}" if self.texts else ""
        return f"{self.key} {self.state} {self.priority} {self.number}{end}"

    def builder(self):
        """The number of the builder that has the row; none if no one has it."""
        name, _, number = self.state.partition("=")
        return int(number) if name == "Building" else None


def order(key):
    """What keys are sorted by: foo/amd64 is before foo+/amd64."""
    return tuple(key.split("/"))


def folder_of(path):
    """A folder that has the files of an archive."""
    if not os.path.isdir(path):
        raise Fault(f"{path}: it is no folder")
    for role in INDICES:
        if not os.path.exists(os.path.join(path, role)):
            raise Fault(f"{path}: it is no desk's folder: it has no {role}")
    return path


def files_of(folder, roles=ROLES):
    """The files of a folder by their roles, as far as it has them."""
    paths = {role: os.path.join(folder, role) for role in roles}
    return {role: it for role, it in paths.items() if role in INDICES or os.path.exists(it)}


def options(files):
    """The words for the files of each role."""
    return [f"--{role}={path}" for role, path in files.items()]


def waiting(folder):
    """What is still asked for since the desks before this folder's: keys, each with its message.

    The file `asked` has it, as next-desk writes it. A row has no message itself, so `claim` can't
    answer with it.
    """
    path = os.path.join(folder, "asked")
    lines = script.read(path).split("\n") if os.path.exists(path) else []
    parts = [line.partition(" : ") for line in lines]
    return {words.split(" ")[0]: text for words, _, text in parts if " waiting " in words}


def table_of(path):
    """The architectures of a table: the first word of each line that has one."""
    return {line.split()[0] for line in script.read(path).splitlines() if line.split()}


def runs_of(lines, room=SCRIPT_BYTES):
    """The lines in lists that each fit into one script."""
    left, some = room, []
    for line in lines:
        size = len(line.encode()) + 1
        if size > left and some:
            yield some
            left, some = room, []
        some.append(line)
        left -= size
    if some:
        yield some


def place_of(files):
    """The folder of which a fault of these files is told."""
    return os.path.dirname(files["archs"]) or "."


def fault_of(place, status, said):
    """How the program failed, as a fault of the script."""
    text = said.decode(errors="replace").strip().removeprefix("transdesk: ")
    if text == "journal: Locked":
        return Fault(f"{place}: another desk is at work there", 6)
    text = text or f"transdesk ended with status {status}"
    return Fault(f"{place}: {text}", status if status > 1 else 70)


def run(files, lines):
    """The answers to a script over the opening rows of these files: nothing of it is kept."""
    answers = []
    for some in runs_of(lines):
        command = [script.program(), "run", *options(files)]
        given = "".join(f"{line}\n" for line in some).encode()
        done = subprocess.run(command, input=given, capture_output=True)
        if done.returncode not in (0, 1):
            raise fault_of(place_of(files), done.returncode, done.stderr)
        answers += done.stdout.decode().split("\n")[:-1]
    return answers


class Desk:
    """A desk that is open, and locked for all others, until it is closed.

    `files` has the paths of its files by their roles, `journal` is the path of its own.
    """

    def __init__(self, files, journal, wait=False):
        self.place = place_of(files)
        self.command = [*options(files), f"--journal={journal}", *(["--wait"] if wait else [])]

    def __enter__(self):
        pipes = {"stdin": subprocess.PIPE, "stdout": subprocess.PIPE, "stderr": subprocess.PIPE}
        self.process = subprocess.Popen([script.program(), "desk", *self.command], **pipes)
        return self

    def __exit__(self, *_):
        try:
            self.process.stdin.close()
        except BrokenPipeError:
            pass
        self.process.wait()
        self.process.stdout.close()
        self.process.stderr.close()

    def ask(self, line):
        """The answer to a line, which is no comment and isn't empty: its lines.

        The desk has done it, and keeps it, when this returns.
        """
        try:
            self.process.stdin.write(f"{line}\n{MARK}\n".encode())
            self.process.stdin.flush()
        except BrokenPipeError:
            pass
        answer = []
        while True:
            got = self.process.stdout.readline()
            if not got.endswith(b"\n"):
                raise fault_of(self.place, self.process.wait(), self.process.stderr.read())
            got = got[:-1].decode()
            # (a line may itself be one that no desk has; only `rows` may have no answer)
            if got == MARKED and (answer or line == "rows"):
                return answer
            answer.append(got)

    def rows(self):
        """All rows, by their keys, in the order of the keys."""
        rows = map(Row.read, self.ask("rows"))
        return {row.key: row for row in rows}


def open_desk(folder, wait=False):
    """The desk of a folder, whose own file is its `journal`."""
    return Desk(files_of(folder_of(folder)), os.path.join(folder, "journal"), wait)


def call(folder, lines, wait=False):
    """The answers of a folder's desk to some lines: each the lines of one."""
    with open_desk(folder, wait) as it:
        return [it.ask(line) for line in lines]
