"""Finds the examples: what the program is run over, and what it has to answer.

examples/README.md says which file is what. A case is a folder `examples/COMMAND/NAME`. It is run
over its own files, which are named for their roles, and over those of an archive: the one that its
file `archive` names, or else `foobar`.
"""

import os

TOP = os.path.dirname(os.path.dirname(os.path.dirname(os.path.abspath(__file__))))
EXAMPLES = f"{TOP}/examples"
# The roles of the files that an archive has. A case may have its own, and these besides.
INDICES = ("archs", "packages", "sources")
OF_ARCHIVE = (*INDICES, "tracker")
OF_CASE = ("state", "journal", "outcomes")
# The files of a case that have the value of an option, up to a last newline, and those that stand for
# an option without one.
VALUES, FLAGS = ("builders", "message", "only", "suite"), ("details", "summary", "steps", "why")
# What each subcommand reads, in this order.
READ_BY = {
    "simulate": (),
    "check": (*INDICES, "tracker"),
    "track": (*INDICES, "state", "tracker"),
    "waves": (*INDICES, "tracker"),
    "plan": (*INDICES, "state", "tracker"),
    "run": (*INDICES, "state", "tracker", "journal", "outcomes"),
    "desk": (*INDICES, "state", "tracker"),
}
# The program of this checkout, and the one that a gate has built.
LAUNCHED, BUILT = f"{TOP}/transdesk", f"{TOP}/crates/transdesk/out/transdesk"


def read(path):
    """The bytes of a file; none if it isn't there."""
    try:
        with open(path, "rb") as it:
            return it.read()
    except FileNotFoundError:
        return b""


def options(values):
    """The words for options, by their names: paths of files mostly."""
    return [f"--{name}={value}" for name, value in values.items()]


def archive(name, roles=INDICES):
    """The files of an archive, by their roles, as far as it has them."""
    paths = {role: f"{EXAMPLES}/archives/{name}/{role}" for role in roles}
    return {role: path for role, path in paths.items() if os.path.isfile(path)}


def refused():
    """The files that are refused, each with its role and the name of the refusal. What follows that
    name says what the file has."""
    for name in sorted(os.listdir(f"{EXAMPLES}/refused")):
        role, fault = name.split(".")[:2]
        yield role, fault, f"{EXAMPLES}/refused/{name}"


def trackers(ending="tracker"):
    """The trackers of real transitions, by their names; `ben` for those that ben reads."""
    names = sorted(os.listdir(f"{EXAMPLES}/trackers"))
    return {
        name.removesuffix(f".{ending}"): f"{EXAMPLES}/trackers/{name}"
        for name in names
        if name.endswith(f".{ending}")
    }


class Case:
    """A case of a subcommand."""

    def __init__(self, command, name):
        self.command, self.name = command, name
        self.folder = f"{EXAMPLES}/{command}/{name}"

    def path(self, part):
        """The path of one of the case's own files, whether it is there or not."""
        return f"{self.folder}/{part}"

    def has(self, part):
        return os.path.isfile(self.path(part))

    def read(self, part):
        """The bytes of one of the case's own files; none if it isn't there."""
        return read(self.path(part))

    def files(self):
        """The files of the run, by their roles."""
        name = self.read("archive").decode().strip() or "foobar"
        # (of a check, only the case's own tracker: it goes with details)
        shared = archive(name, INDICES if self.command == "check" else OF_ARCHIVE)
        own = {role: self.path(role) for role in (*OF_ARCHIVE, *OF_CASE) if self.has(role)}
        found = shared | own
        return {role: found[role] for role in READ_BY[self.command] if role in found}

    def input(self):
        """The path of standard input."""
        part = {"simulate": "input", "run": "script", "desk": "script"}.get(self.command)
        return self.path(part) if part else os.devnull

    def builders(self):
        """The number of builders, as it is written; None if the case has none."""
        return self.read("builders").decode().strip() or None

    def values(self):
        """The values of the options that aren't files, by their names."""
        return {
            name: self.read(name).decode().removesuffix("\n") for name in VALUES if self.has(name)
        }

    def words(self):
        """The words by which the program is called."""
        flags = [f"--{name}" for name in FLAGS if self.has(name)]
        return [self.command, *options(self.files()), *options(self.values()), *flags]

    def wanted(self):
        """The exit status, standard output and standard error that the case has to end with."""
        return int(self.read("status") or 0), self.read("stdout"), self.read("stderr")


def cases(command):
    """The cases of a subcommand, by their names."""
    return [Case(command, name) for name in sorted(os.listdir(f"{EXAMPLES}/{command}"))]
