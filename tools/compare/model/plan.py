"""The lines of a plan, by the rules of docs/FORMATS.md: what is due, in which order, and what waits."""

import functools

from parts import parts_and_steps
from versions import MOST, base_text, equal, read_relation, read_version, split_rebuild

UNDER_WAY = ("Needs-Build", "Building", "Built", "Uploaded", "Dep-Wait")
# What is said of a message, or of a suite, that no line can have.
SAID = {
    "message": "error: --message takes one line that a single or double quote can hold\n",
    "suite": "error: --suite takes small letters, digits and hyphens, a letter first\n",
}


class WordFault(Exception):
    """A message or a suite that no line can have."""


def quoted(message):
    """A message between quotes that a shell reads as the desk does."""
    harmful = any(character in message for character in '"$`\\')
    if "\n" in message or harmful and "'" in message:
        raise WordFault("message")
    return f"'{message}'" if harmful else f'"{message}"'


def is_suite(word):
    """Whether a word is the name of a suite."""
    return word[:1] in tuple("abcdefghijklmnopqrstuvwxyz") and all(
        character in "abcdefghijklmnopqrstuvwxyz0123456789-" for character in word)


def arrival_text(version, number):
    """A version's text with the number of a rebuild behind it, its epoch as a number."""
    epoch, colon, rest = version.partition(":")
    if colon:
        head = f"{int(epoch)}:" if int(epoch) or ":" in rest.rpartition("-")[0 if "-" in rest else 2] else ""
    else:
        head, rest = "", version
    return f"{head}{rest}" + (f"+b{number}" if number else "")


def is_version(text):
    """Whether a text is a version."""
    try:
        read_version(text)
        return True
    except Exception:
        return False


class Plan:
    """What is to be done for a tracker over an archive and its rows."""

    def __init__(self, archive, tracker, rows):
        self.archive, self.tracker, self.rows = archive, tracker, rows
        self.status = {key: archive.status(tracker, key) for key in archive.keys()}
        self.affected = sorted({name for (name, _), status in self.status.items() if status})
        self.wanted = [key for key in sorted(self.status) if self.status[key] in ("bad", "partial")]
        self.ready = [key for key in self.wanted if rows[key].state == "Installed" and any(
            self.is_bad(package) for package in self.present(*key))]
        self.numbers = {name: self.number(name) for name in {key[0] for key in self.wanted}}
        self.due = [key for key in self.ready if self.numbers[key[0]] <= MOST]
        self.pending = [key for key in self.wanted if rows[key].state.partition("=")[0] in UNDER_WAY]
        self.moving = set(self.due) | set(self.pending)
        self.asked = {}
        self.place()

    # ---- packages

    def is_bad(self, package):
        """Whether the tracker calls a package bad by its own stanza."""
        return self.tracker.queries[2].holds(package.all_fields())

    def packages(self, source, arch):
        """A source's packages of exactly an architecture, or of `all`."""
        return [package for package in self.archive.binaries.values()
                if package.source == source and package.arch == arch]

    def present(self, source, arch):
        """Those of the source's present version."""
        return [package for package in self.packages(source, arch)
                if equal(package.source_version, self.archive.sources[source].version)]

    # ---- numbers

    def numbers_at(self, source, arch):
        """The numbers of a source on an architecture, by its row and by the index."""
        row = self.rows.get((source, arch))
        own = [row.number] if row else []
        return own + [split_rebuild(package.version)[1] for package in self.present(source, arch)]

    def number(self, source):
        """The number under which the source's rows are rebuilt that are due but for it."""
        top = max([0] + [number for arch in self.archive.names for number in self.numbers_at(source, arch)])
        there = [number for name, arch in self.ready if name == source for number in self.numbers_at(name, arch)]
        return top if all(number < top for number in there) else top + 1

    # ---- parts and steps

    def alternatives(self, source, arch):
        """The alternatives of a source's build that are active on an architecture."""
        if (source, arch) not in self.asked:
            triple = next(triple for triple in self.archive.archs if triple[0] == arch)
            texts = [self.archive.sources[source].fields.get(name, "") for name in ("Build-Depends", "Build-Depends-Arch")]
            self.asked[source, arch] = [
                alternative for text in texts if text.strip() for member in read_relation(text)
                for alternative in member if alternative.is_active(triple)]
        return self.asked[source, arch]

    def names(self, source, arch):
        """The names that a source's build asks for on an architecture where it has a row."""
        if (source, arch) not in self.status:
            return set()
        return {alternative.name for alternative in self.alternatives(source, arch)}

    def builds_there(self, source, other, arch):
        """Whether a source builds on another one on an architecture."""
        asked = self.names(source, arch)
        return source != other and any(asked & offered(package) for home in (arch, "all")
                                       for package in self.packages(other, home))

    def place(self):
        """Finds the part and the step of each source that moves."""
        nodes = sorted({name for name, _ in self.moving})
        bases = {name: {other for other in nodes if any(
            self.builds_there(name, other, arch) for arch in self.archive.names)} for name in nodes}
        self.part, self.step = parts_and_steps(bases)
        self.nodes = nodes

    # ---- waits

    def arrival(self, key):
        """The number under which a row arrives."""
        return self.numbers[key[0]] if key in self.due else self.rows[key].number

    def awaited(self, key):
        """The sources for which a due row waits."""
        source, arch = key
        return [other for other in self.nodes if self.part[other] != self.part[source]
                and (other, arch) in self.moving and self.builds_there(source, other, arch)]

    def wait(self, key, other):
        """Package, relation and whether that is of an older version; or None."""
        source, arch = key
        asked, number = self.names(source, arch), self.arrival((other, arch))
        present = self.present(other, arch)
        named = [package for package in present if asked & offered(package)]
        for packages in (named, present):
            if packages:
                package = min(packages, key=lambda package: package.name)
                version = arrival_text(base_text(package.version), number)
                return (package.name, version, False) if is_version(version) else None
        own = [package for package in self.packages(other, arch) if package.name in asked]
        if own:
            package = min(own, key=lambda package: package.name)
            return package.name, arrival_text(self.archive.sources[other].version, number), True
        return None

    # ---- lines

    def source_word(self, source):
        """How a line names a source."""
        version = self.archive.sources[source].version
        return source if split_rebuild(version)[1] else f"{source}_{version}"

    def source_lines(self, source, message, suite):
        """The lines of a source with a due row."""
        archs = [arch for arch in self.archive.names if (source, arch) in self.due]
        word, tail = self.source_word(source), f"{suite} . -m"
        lines = [f"nmu {self.numbers[source]} {word} . {' '.join(archs)} . {tail} {quoted(message)}"]
        relations, without = {}, []
        for arch in archs:
            found = []
            for other in self.awaited((source, arch)):
                wait = self.wait((source, arch), other)
                if wait:
                    found.append((wait[0], wait[1], wait[2], other))
                else:
                    without.append(f"# no wait: {source}/{arch} for {other}")
            if found:
                text = ", ".join(f"{name} (>= {version})" for name, version, _, _ in sorted(found))
                relations.setdefault(text, []).append((arch, sorted(found)))
        for text, there in relations.items():
            lines.append(f"dw {word} . {' '.join(arch for arch, _ in there)} . {tail} \"{text}\"")
            lines += [f"# check: {source}/{arch} waits for {name} of an older {other}"
                      for arch, found in there for name, _, older, other in found if older]
        return lines + without

    def reason(self, key):
        """Why a wanted row isn't due."""
        source, arch = key
        if self.rows[key].state != "Installed":
            return "state"
        if self.numbers[source] > MOST:
            return "number"
        for home, reason in ((arch, "old"), ("all", "all")):
            if any(self.is_bad(package) for package in self.packages(source, home)):
                return reason
        return "source"

    def lines(self, message, suite="unstable"):
        """All lines."""
        quoted(message)
        if not is_suite(suite):
            raise WordFault("suite")
        title = self.tracker.title.split("\n")
        lines = [f"# tracker {title[0]}"] + [f"# {line}" for line in title[1:]]
        due = {name for name, _ in self.due}
        step = part = None
        for name in sorted(due, key=lambda name: (self.step[name], self.part[name][0], name)):
            if self.step[name] != step:
                step = self.step[name]
                lines.append(f"# step {step}")
            if self.part[name] != part:
                part = self.part[name]
                if len(part) > 1:
                    lines.append(f"# {' '.join(part)} build on one another")
            lines += self.source_lines(name, message, suite)
        for key in self.wanted:
            if key not in self.due:
                row = self.rows[key]
                lines.append(f"# not planned: {key[0]}/{key[1]} {self.status[key]} {row.state} {row.number} {self.reason(key)}")
        return lines


def offered(package):
    """The names that a package offers."""
    return {package.name} | {name for name, _ in package.provides}
