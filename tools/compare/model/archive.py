"""An archive, the status of its rows, waves and reports, by the rules of docs/FORMATS.md."""

import re

from desk import Row
from parts import parts_and_steps
from versions import compare, equal, matches, read_relation, split_rebuild

NAME_BYTES = "abcdefghijklmnopqrstuvwxyz0123456789+.-"
STATUSES = ("good", "bad", "partial", "unknown")


class Package:
    """A stanza of Packages."""

    def __init__(self, name, version, arch, source, source_version, fields):
        self.name, self.version, self.arch = name, version, arch
        self.source, self.source_version, self.fields = source, source_version, fields
        self.provides = []
        for member in read_relation(fields["Provides"]) if "Provides" in fields else ():
            if len(member) == 1 and member[0].operator in (None, "="):
                self.provides.append((member[0].name, member[0].version))

    def stanza(self):
        """The stanza's text."""
        source = "" if (self.source, self.source_version) == (self.name, self.version) else (
            f"Source: {self.source}\n" if self.source_version == self.version
            else f"Source: {self.source} ({self.source_version})\n")
        head = f"Package: {self.name}\n{source}Version: {self.version}\nArchitecture: {self.arch}\n"
        return head + "".join(f"{name}: {value}\n" for name, value in self.fields.items())

    def all_fields(self):
        """Each field by its name in lower case."""
        return fields_of(self.stanza())


class Source:
    """A stanza of Sources."""

    def __init__(self, name, version, archs, fields):
        self.name, self.version, self.archs, self.fields = name, version, archs, fields

    def stanza(self):
        """The stanza's text."""
        head = f"Package: {self.name}\nVersion: {self.version}\nArchitecture: {' '.join(self.archs)}\n"
        return head + "".join(f"{name}: {value}\n" for name, value in self.fields.items())

    def all_fields(self):
        """Each field by its name in lower case."""
        return fields_of(self.stanza())


def fields_of(stanza):
    """The fields of a stanza without continuations."""
    parts = (line.partition(":") for line in stanza.splitlines())
    return {name.lower(): value.strip(" \t") for name, _, value in parts}


def kept(stanzas, key):
    """Of the stanzas with one key, the one with the greatest version, and the first of those."""
    best = {}
    for stanza in stanzas:
        before = best.get(key(stanza))
        if before is None or compare(before.version, stanza.version) < 0:
            best[key(stanza)] = stanza
    return best


class Archive:
    """A table of architectures, as triples of name, OS and CPU, and two lists of stanzas."""

    def __init__(self, archs, packages, sources):
        self.archs = archs
        self.names = [arch[0] for arch in archs]
        there = [package for package in packages if package.arch in self.names + ["all"]]
        self.binaries = kept(there, lambda package: (package.name, package.arch))
        self.sources = kept(sources, lambda source: source.name)

    def keys(self):
        """The keys that have a row, in order."""
        return sorted((source.name, arch[0]) for source in self.sources.values() for arch in self.archs
                      if any(matches(word, arch) for word in source.archs))

    def opening_rows(self):
        """The rows with which a desk opens."""
        rows = {}
        for key in self.keys():
            own = self.sources[key[0]].version
            numbers = [split_rebuild(package.version)[1] for package in self.binaries.values()
                       if (package.source, package.arch) == key and equal(package.source_version, own)]
            rows[key] = Row("Installed", 0, max(numbers)) if numbers else Row("Needs-Build")
        return rows

    def counts(self):
        """The line of a check."""
        return [f"sources {len(self.sources)} binaries {len(self.binaries)} rows {len(self.keys())}"]

    def details(self, cut=()):
        """What a check's details say, where the texts of these indices don't end with a newline."""
        rows, lines, warnings = self.opening_rows(), [], []
        for name in self.names:
            own = sum(package.arch == name for package in self.binaries.values())
            there = [row for key, row in rows.items() if key[1] == name]
            queued = sum(row.state == "Needs-Build" for row in there)
            lines.append(f"arch {name} binaries {own} rows {len(there)} needs-build {queued}")
            warnings += [] if own else [f"warning: Packages has no package of {name}"]
        for index, of, stanzas, has, lacks in (
            ("Packages", "sources", self.binaries, "directory", "filename"),
            ("Sources", "packages", self.sources, "filename", "directory"),
        ):
            fields = [stanza.all_fields() for stanza in stanzas.values()]
            count = sum(has in it and lacks not in it for it in fields)
            warnings += [f"warning: {index} has stanzas of {of}: {count}"] if count else []
        warnings += [f"warning: {index} doesn't end with a newline: it may be cut off"
                     for index in ("Packages", "Sources") if index in cut]
        return lines + warnings

    # ---- trackers

    def asked(self, tracker):
        """What a check's details say of a tracker."""
        packages = [package.all_fields() for package in self.binaries.values()]
        sources = [source.all_fields() for source in self.sources.values()]
        asked = list({query.text(): query for whole in tracker.queries for query in whole.asked()}.values())
        lines = [
            f'tracker {query.form} .{query.parts[0]} "{query.parts[1]}"'
            f" packages {sum(map(query.holds, packages))} sources {sum(map(query.holds, sources))}"
            for query in asked
        ]
        fields = dict.fromkeys(query.parts[0] for query in asked)
        lines += [f"warning: no stanza has the field .{field}" for field in fields
                  if not any(field.lower() in it for it in packages + sources)]
        return lines + [
            f'warning: a text is no pattern, and no name has one of | ^ $ *: .{query.parts[0]} "{query.parts[1]}"'
            for query in asked if query.form == "text" and set(query.parts[1]) & set("|^$*")
        ]

    def stanzas(self, key):
        """The fields of a row's stanzas."""
        return [self.sources[key[0]].all_fields()] + [
            package.all_fields() for package in self.binaries.values()
            if package.source == key[0] and package.arch in (key[1], "all")]

    def status(self, tracker, key):
        """The status of a row that is affected, or None."""
        stanzas = self.stanzas(key)
        affected, good, bad = (any(query.holds(fields) for fields in stanzas) for query in tracker.queries)
        if not affected:
            return None
        return "partial" if good and bad else "good" if good else "bad" if bad else "unknown"

    def bases(self, source):
        """The other sources that a source builds on, each with the packages by which it does."""
        found = {}
        texts = [self.sources[source].fields.get(name, "") for name in ("Build-Depends", "Build-Depends-Arch")]
        for _, name in (key for key in self.keys() if key[0] == source):
            arch = next(arch for arch in self.archs if arch[0] == name)
            asked = {alternative.name for text in texts if text.strip() for member in read_relation(text)
                     for alternative in member if alternative.is_active(arch)}
            for package in self.binaries.values():
                offered = {package.name} | {provided for provided, _ in package.provides}
                if package.arch in (name, "all") and package.source != source and offered & asked:
                    found.setdefault(package.source, set()).add(package.name)
        return found

    def affected(self, tracker):
        """What each affected source builds on among these, with the packages by which it does."""
        names = sorted({key[0] for key in self.keys() if self.status(tracker, key)})
        return {source: {base: packages for base, packages in self.bases(source).items() if base in names}
                for source in names}

    def levels(self, tracker):
        """The affected sources, each with its level, or None where it is cyclic."""
        needs = {source: set(bases) for source, bases in self.affected(tracker).items()}
        affected = sorted(needs)
        levels, level = {}, 0
        while True:
            level += 1
            ready = [source for source in affected if source not in levels and all(need in levels for need in needs[source])]
            if not ready:
                return {source: levels.get(source) for source in affected}
            levels.update((source, level) for source in ready)

    def blocks(self, tracker):
        """Each level that some source stands in, the cyclic ones last, with its sources."""
        levels = self.levels(tracker)
        for level in sorted({level for level in levels.values() if level}) + [None]:
            sources = [source for source in sorted(levels) if levels[source] == level]
            if sources:
                yield f"level {level}" if level else "cyclic", sources

    def waves(self, tracker):
        """The lines of `waves`."""
        return [line for head, sources in self.blocks(tracker) for line in [head] + sources]

    def why(self, tracker):
        """For each affected source its line with what it builds on."""
        lines = {}
        for source, bases in self.affected(tracker).items():
            reasons = [f"{base} {min(packages)}" for base, packages in sorted(bases.items())]
            lines[source] = f"{source}: {', '.join(reasons)}" if reasons else source
        return lines

    def waves_why(self, tracker):
        """The lines of `waves --why`."""
        why = self.why(tracker)
        return [line for head, sources in self.blocks(tracker)
                for line in [head] + [why[source] for source in sources]]

    def steps(self, tracker, why=False):
        """The lines of `waves --steps`, or with `--why` too."""
        part, step = parts_and_steps({source: set(bases) for source, bases in self.affected(tracker).items()})
        reasons, lines, last = self.why(tracker), [], None
        for members in sorted(set(part.values()), key=lambda members: (step[members[0]], members)):
            if step[members[0]] != last:
                last = step[members[0]]
                lines.append(f"step {last}")
            lines += [reasons[source] for source in members] if why else [" ".join(members)]
        return lines

    def report(self, tracker, rows, shown=STATUSES):
        """The lines of a report over these rows that shows those of some statuses."""
        lines, counts = [f"tracker {tracker.title}"], dict.fromkeys(STATUSES, 0)
        for head, sources in self.blocks(tracker):
            found = [(key, rows[key], self.status(tracker, key)) for key in self.keys()
                     if key[0] in sources and self.status(tracker, key)]
            installed = sum(row.state == "Installed" for _, row, _ in found)
            lines.append(f"{head} rows {len(found)} installed {installed}")
            for key, row, status in found:
                counts[status] += 1
                if status in shown:
                    lines.append(f"{key[0]}/{key[1]} {status} {row.state} {row.priority} {row.number}")
        told = " ".join(f"{name} {count}" for name, count in counts.items())
        return lines + [f"affected {sum(counts.values())} {told}"]


class Tracker:
    """A title, and what is affected, good and bad."""

    def __init__(self, title, queries):
        self.title, self.queries = title, queries

    def text(self):
        """The tracker's text."""
        keys = zip(("is_affected", "is_good", "is_bad"), self.queries)
        return f'title = "{self.title}";\n' + "".join(f"{key} = {query.text()};\n" for key, query in keys)


class Query:
    """`form` is `or`, `and`, `not`, `true`, `false`, `text` or `pattern`, over its parts."""

    def __init__(self, form, *parts):
        self.form, self.parts = form, parts

    def text(self):
        """The query's text."""
        if self.form in ("or", "and"):
            return f"({self.parts[0].text()} {'|' if self.form == 'or' else '&'} {self.parts[1].text()})"
        if self.form == "not":
            return f"!{self.parts[0].text()}"
        if self.form == "text":
            return f'.{self.parts[0]} ~ "{self.parts[1]}"'
        if self.form == "pattern":
            return f".{self.parts[0]} ~ /{self.parts[1]}/"
        return self.form

    def asked(self):
        """Its texts and patterns, from the left."""
        if self.form in ("text", "pattern"):
            return [self]
        parts = self.parts if self.form in ("or", "and", "not") else ()
        return [found for part in parts for found in part.asked()]

    def holds(self, fields):
        """Whether it holds of a stanza."""
        if self.form == "or":
            return any(part.holds(fields) for part in self.parts)
        if self.form == "and":
            return all(part.holds(fields) for part in self.parts)
        if self.form == "not":
            return not self.parts[0].holds(fields)
        if self.form in ("true", "false"):
            return self.form == "true"
        value = fields.get(self.parts[0].lower())
        if value is None:
            return False
        if self.form == "pattern":
            return re.search(self.parts[1], value) is not None
        asked = re.escape(self.parts[1])
        return bool(self.parts[1]) and re.search(
            rf"(?<![a-z0-9+.-]){asked}(?![a-z0-9+.-])", value) is not None
