"""Runs over a folder of files, named for their roles (`--folder`).

Each case answers from a folder of its files what it answers over these files. The option of a file
is taken before the folder's file, and what a folder lacks is refused.
"""

import os
import shutil

import cases
from runs import NOTHING

COMMANDS = ("check", "track", "waves", "plan", "run")
# The words that a subcommand needs besides its files.
NEEDED = {"plan": ["--message=x"]}
# The roles that a folder has; the file of each other role is given by its option.
ROLES = (*cases.OF_ARCHIVE, "state", "journal")
NO_TRACKER = (
    b"error: the following required arguments were not provided:\n  --tracker <FILE>\n\n"
    b"For more information, try '--help'.\n"
)


def folder_of(runs, name, files):
    """A folder of these files, by their roles; its path."""
    path = f"{runs.room}/{name}"
    os.mkdir(path)
    for role, file in files.items():
        os.symlink(file, f"{path}/{role}")
    return path


def values_of(case):
    """The words of a case that aren't files."""
    files = cases.options(case.files())
    return [word for word in case.words()[1:] if word not in files]


def from_folders(runs):
    """Each case over a folder of its files; over one whose other half is given by options; and over
    one whose files are all wrong, since each has an option."""
    for command in COMMANDS:
        for case in cases.cases(command):
            files = case.files()
            # (a check doesn't take the tracker of a folder)
            roles = cases.INDICES if command == "check" else ROLES
            given = {role: file for role, file in files.items() if role in roles}
            rest = {role: file for role, file in files.items() if role not in roles}
            words = [*values_of(case), *cases.options(rest)]
            name = f"{command}.{os.path.basename(case.folder)}"
            whole = folder_of(runs, f"{name}.whole", given)
            half = folder_of(runs, f"{name}.half", dict(list(given.items())[::2]))
            wrong = folder_of(runs, f"{name}.wrong", dict.fromkeys(given, cases.EXAMPLES))
            more = cases.options(dict(list(given.items())[1::2]))
            tries = (
                ("a folder", whole, []),
                ("a folder and options", half, more),
                ("options before a folder", wrong, cases.options(given)),
            )
            for how, folder, own in tries:
                found = runs.end([command, f"--folder={folder}", *words, *own], case.input())
                runs.compare(f"{command} of {case.name} by {how}", found, *case.wanted())


def desks_from_folders(runs):
    """Each desk over a folder of its files, which has the desk's own as `journal`, or gets it."""
    for case in cases.cases("desk"):
        folder = folder_of(runs, f"desk.{case.name}", case.files())
        file = f"{folder}/journal"
        if case.has("journal"):
            shutil.copy(case.path("journal"), file)
        found = runs.end(["desk", f"--folder={folder}", *values_of(case)], case.input())
        runs.compare(f"desk of {case.name} by a folder", found, *case.wanted())
        if cases.read(file) != case.read("kept"):
            runs.differs(f"desk of {case.name} by a folder: its file")


def refused(runs, what, words, status, said):
    runs.compare(what, runs.end(words), status, NOTHING, said)


def lacking(runs):
    """What a folder lacks: a file of an archive, a tracker, all, or what may be missing."""
    archive = cases.archive("waves", cases.OF_ARCHIVE)
    none = f"{runs.room}/none"
    bare = folder_of(runs, "bare", cases.archive("waves"))
    for command in (*COMMANDS, "desk"):
        needed = NEEDED.get(command, [])
        refused(runs, f"{command}: no folder", [command, f"--folder={none}", *needed, "--explain"], 5,
                f'transdesk: archs: cannot read\narchs: "{none}/archs" isn\'t there; '
                "wanted: the path of a file that is there\n".encode())
        for role in cases.INDICES:
            files = {name: file for name, file in archive.items() if name != role}
            folder = folder_of(runs, f"{command}.without.{role}", files)
            words = [command, f"--folder={folder}", *needed, "--explain"]
            said = (f"transdesk: {role}: cannot read\n"
                    f'{role}: "{folder}/{role}" isn\'t there; '
                    "wanted: the path of a file that is there\n")
            refused(runs, f"{command}: no {role} in the folder", words, 5, said.encode())
            if os.path.lexists(f"{folder}/journal"):
                runs.differs(f"{command}: no {role} in the folder, but a journal is made")
        if command in ("track", "waves", "plan"):
            words = [command, f"--folder={bare}", *needed]
            refused(runs, f"{command}: no tracker in the folder", words, 3, NO_TRACKER)
    folder = folder_of(runs, "unread", {**archive, "state": cases.EXAMPLES})
    said = b"transdesk: state: cannot read\n"
    refused(runs, "track: a state that can't be read", ["track", f"--folder={folder}"], 5, said)


def run_all(runs):
    from_folders(runs)
    desks_from_folders(runs)
    lacking(runs)
