"""Command lines, read by the rules of docs/FORMATS.md."""

import re

from versions import NAME, Fault, equal, read_relation, read_version, split_rebuild

SPACE = " \t\n"
ALL = ("ANY", "ALL")


class Line:
    """The words of a line: each its text and whether it is bare; and whether a quote stays open."""

    def __init__(self, line):
        self.words, self.open = [], False
        text, bare, some, place = "", True, False, 0
        while place < len(line):
            character = line[place]
            if character in SPACE:
                if some:
                    self.words.append((text, bare))
                text, bare, some = "", True, False
            elif character in "'\"":
                close = line.find(character, place + 1)
                if close < 0 or "\n" in line[place:close]:
                    self.open = True
                    break
                text, bare, some, place = text + line[place + 1:close], False, True, close
            else:
                text, some = text + character, True
            place += 1
        if some and not self.open:
            self.words.append((text, bare))
        self.at = 0

    def next(self):
        """The next word, or None."""
        return self.words[self.at] if self.at < len(self.words) else None

    def take(self, missing):
        """The next word, which is read; the fault is of a line that ends here."""
        word = self.next()
        if word is None:
            raise Fault("UnterminatedQuote" if self.open else missing)
        self.at += 1
        return word

    def end(self):
        """Nothing follows."""
        if self.next() is not None:
            raise Fault("Extra")
        if self.open:
            raise Fault("UnterminatedQuote")


DOT = (".", True)
OPTIONS = {("-m", True): "MissingMessage", ("--extra-depends", True): "MissingValue"}
TAKES = {"gb": (), "bp": (), "nmu": ("-m", "--extra-depends"), "dw": ("-m",)}


class Command:
    """A command line that was read; `archs` is the table, as pairs of name, OS and CPU."""

    def __init__(self, text, archs, suite):
        line = Line(text)
        self.verb = line.take("UnknownCommand")[0]
        if self.verb not in TAKES:
            raise Fault("UnknownCommand")
        self.number = self.read_number(line)
        self.packages = self.read_packages(line)
        self.archs = self.read_archs(line, [arch[0] for arch in archs])
        self.values = self.read_rest(line, suite)

    def read_number(self, line):
        """The priority of `bp`, the number of `nmu`, or None."""
        if self.verb == "bp":
            text = line.take("BadNumber")[0]
            if not re.fullmatch("-?[0-9]+", text) or abs(int(text)) > 9999:
                raise Fault("BadNumber")
            return int(text)
        ahead = line.words[line.at:line.at + 2]
        follows = len(ahead) == 2 and ahead[1] != DOT or len(ahead) == 1 and line.open
        if self.verb == "nmu" and follows and re.fullmatch("[0-9]+", ahead[0][0]):
            line.at += 1
            if not re.fullmatch("[1-9][0-9]{0,3}", ahead[0][0]):
                raise Fault("BadNumber")
            return int(ahead[0][0])
        return None

    @staticmethod
    def read_packages(line):
        """The sources, each with a version or None, up to the dot."""
        packages = []
        while True:
            word = line.take("NoDot" if packages else "NoPackage")
            if word == DOT:
                if not packages:
                    raise Fault("NoPackage")
                return packages
            name, cut, version = word[0].partition("_")
            try:
                if cut:
                    read_version(version)
            except Fault:
                name = ""
            if not NAME.fullmatch(name):
                raise Fault("BadPackage")
            packages.append((name, version if cut else None))

    @staticmethod
    def read_archs(line, names):
        """The architectures that are chosen, up to a dot, which is left."""
        chosen, first = set(), True
        while True:
            word = line.next()
            if first and word in (None, DOT):
                line.take("NoArch")
                raise Fault("NoArch")
            if word in (None, DOT):
                return chosen
            text = line.take("NoArch")[0]
            if text in ALL:
                chosen |= set(names)
            elif text in names:
                chosen.add(text)
            elif not first and text[:1] == "-" and text[1:] in names:
                chosen.discard(text[1:])
            else:
                raise Fault("UnknownArch")
            first = False

    def read_rest(self, line, suite):
        """The values of the options."""
        values = {}
        if line.next() == DOT:
            line.at += 1
            self.read_behind_dot(line, suite, values)
        line.end() if not (self.verb == "dw" and "-m" not in values and line.next() is None) else line.take("MissingMessage")
        return values

    def read_behind_dot(self, line, suite, values):
        """A suite, options, a suite with a dot and options, or nothing."""
        word = line.next()
        if word is None:
            return
        if word not in OPTIONS:
            if word[0] != suite:
                raise Fault("UnknownSuite")
            line.at += 1
            if line.next() != DOT:
                return
            line.at += 1
        while line.next() in OPTIONS:
            option = line.next()[0]
            if option not in TAKES[self.verb] or option in values:
                raise Fault("Extra")
            line.at += 1
            values[option] = line.take(OPTIONS[option, True])[0]
            if self.verb == "dw" or option != "-m":
                try:
                    read_relation(values[option])
                except Fault as fault:
                    raise Fault("BadRelation") from fault

    def names(self, key):
        """Whether it names the key's row."""
        return key[1] in self.archs and any(name == key[0] for name, _ in self.packages)

    def fits(self, key, number, version):
        """Whether the version of a row with the number, of a source with the version, is asked for."""
        for name, asked in self.packages:
            if name != key[0]:
                continue
            base, suffix = split_rebuild(asked) if asked is not None else (None, 0)
            if asked is None or equal(base, version) and suffix in (0, number):
                return True
        return False

    def kind(self):
        """The entry's kind, extra and text."""
        text = self.values.get("-m", "")
        if self.verb == "bp":
            return f"bp={self.number}", "", ""
        if self.verb == "nmu":
            return "nmu" + (f"={self.number}" if self.number else ""), self.values.get("--extra-depends", ""), text
        return self.verb, "", text
