"""wanna-build's states, as a CSV has them: `psql --csv` of its tables, or of UDD's `wannabuild`.

The columns are found by their names:
  source, architecture, version, state   needed
  binary_nmu_version                     the rebuild number (none: 0)
  depends                                what a Dep-Wait row waits for
  buildprio, or priority                 the priority, if it is a number (else 0)
"""

import csv
import io
import re
import typing

import desk
import script
from script import Fault

# wanna-build's states, each with the desk's name for it. Building has a builder at the desk.
STATES = {
    name: name
    for name in (
        "Needs-Build", "Building", "Built", "Uploaded", "Installed", "Dep-Wait",
        "BD-Uninstallable", "Build-Attempted", "Failed", "Not-For-Us",
    )
} | {"Auto-Not-For-Us": "Not-For-Us"}
NEEDED = ("source", "architecture", "version", "state")
# The greatest rebuild number, and priority.
MOST = 9999


class Line(typing.NamedTuple):
    """A line of the CSV, with its number. `why` says what it can't be read for, if it can't."""

    at: int
    source: str
    arch: str
    version: str
    state: str = ""
    priority: int = 0
    number: int = 0
    waits: str = ""
    why: str = ""

    @property
    def key(self):
        return f"{self.source}/{self.arch}"


def number_of(text):
    """A rebuild number, none if the text is no such number."""
    value = (text or "").strip() or "0"
    # (a column of the type numeric may be written as 5.0)
    if not re.fullmatch(r"-?[0-9]{1,6}(\.0+)?", value):
        return None
    number = int(value.partition(".")[0])
    return number if 0 <= number <= MOST else None


def priority_of(fields):
    for column in ("buildprio", "priority"):
        value = (fields.get(column) or "").strip()
        # (wanna-build's priority is also a word, as optional)
        if re.fullmatch(r"-?[0-9]{1,9}(\.0+)?", value):
            return max(-MOST, min(MOST, int(value.partition(".")[0])))
    return 0


def line_of(at, fields):
    """A line of the CSV, of which `fields` are the columns by their names."""
    source, arch, version, state = (fields[it].strip() for it in NEEDED)
    line = Line(at, source, arch, version)
    number = number_of(fields.get("binary_nmu_version"))
    if state not in STATES:
        return line._replace(why=f"{state or 'no state'}: the desk has no such state")
    if number is None:
        given = fields.get("binary_nmu_version")
        return line._replace(why=f"binary_nmu_version {given} is no number up to {MOST}")
    spelled = re.fullmatch(r"[a-z0-9][a-z0-9+.-]+", source)
    if not (spelled and re.fullmatch(r"[A-Za-z0-9.+:~-]+", version)):
        return line._replace(why="no source, or no version")
    waits = " ".join((fields.get("depends") or "").split()) if state == "Dep-Wait" else ""
    return line._replace(
        state=STATES[state], priority=priority_of(fields), number=number, waits=waits
    )


def read(text, table):
    """The lines of the CSV whose architecture is in the table, no key twice."""
    # (a byte order mark, as a spreadsheet writes it)
    text = text.removeprefix("\ufeff")
    rows = csv.DictReader(io.StringIO(text, newline=""), strict=True)
    lines, seen = [], set()
    try:
        lacking = [it for it in NEEDED if it not in (rows.fieldnames or [])]
        if lacking:
            raise Fault(f"standard input: no column {lacking[0]} in the header line")
        for fields in rows:
            at = rows.line_num
            if None in fields or None in [fields[it] for it in NEEDED]:
                why = "it hasn't as many columns as the header"
                raise Fault(f"standard input: line {at}: {why}")
            line = line_of(at, fields)
            if line.arch not in table:
                continue
            if line.key in seen:
                why = f"{line.key} is there twice (one distribution?)"
                raise Fault(f"standard input: line {at}: {why}")
            seen.add(line.key)
            lines.append(line)
    except csv.Error as why:
        raise Fault(f"standard input: line {rows.line_num}: {why}") from why
    return lines


def given(table):
    """The lines on standard input."""
    return read(script.given(), table)


def verdicts(files, lines):
    """Of the key of each line: whether the indices have its version; no key that they don't give.

    transdesk says so itself. A script sets the priority of each row by its source's version: the
    row takes it, is skipped for its version, or isn't there.
    """
    indices = {role: files[role] for role in desk.INDICES}
    found = {}
    for answer in desk.run(indices, [f"bp 0 {it.source}_{it.version} . {it.arch}" for it in lines]):
        taken = re.fullmatch(r"entry [0-9]+ takes (\S+)", answer)
        skipped = re.fullmatch(r"skipped (\S+) version", answer)
        if taken or skipped:
            found[(taken or skipped)[1]] = bool(taken)
    return found
