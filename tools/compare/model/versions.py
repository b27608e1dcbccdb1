"""Versions, tables of architectures and relations, read by the rules of docs/FORMATS.md."""

import functools
import re

NAME = re.compile(r"[a-z0-9][a-z0-9+.-]+")
ARCH_WORD = re.compile(r"[a-z0-9-]+")
MOST_EPOCH = 2_147_483_647
# The largest rebuild number.
MOST = 9999


class Fault(Exception):
    """A text isn't of its form; the argument is the refusal's name."""


def read_version(text):
    """Epoch, upstream part and revision."""
    epoch, colon, rest = text.partition(":")
    if colon:
        if not re.fullmatch("[0-9]+", epoch) or int(epoch) > MOST_EPOCH:
            raise Fault("BadEpoch")
    else:
        epoch, rest = "0", text
    upstream, hyphen, revision = rest.rpartition("-")
    if not hyphen:
        upstream, revision = rest, "0"
    more = ":" if colon else ""
    if not re.fullmatch(rf"[A-Za-z0-9.+~{more}-]+", upstream) or not re.fullmatch(r"[A-Za-z0-9.+~]+", revision):
        raise Fault("BadVersion")
    return int(epoch), upstream, revision


def weight(character):
    """Where a character of a run without digits stands; the end of a part is None."""
    if character == "~":
        return -1
    if character is None:
        return 0
    return ord(character) if character.isalpha() else 256 + ord(character)


def compare_parts(one, other):
    """By alternating runs of what is no digit and of digits, from the left."""
    while one or other:
        left, right = re.match("[^0-9]*", one)[0], re.match("[^0-9]*", other)[0]
        for place in range(max(len(left), len(right))):
            a = weight(left[place] if place < len(left) else None)
            b = weight(right[place] if place < len(right) else None)
            if a != b:
                return -1 if a < b else 1
        one, other = one[len(left):], other[len(right):]
        left, right = re.match("[0-9]*", one)[0], re.match("[0-9]*", other)[0]
        if int(left or "0") != int(right or "0"):
            return -1 if int(left or "0") < int(right or "0") else 1
        one, other = one[len(left):], other[len(right):]
    return 0


def compare(one, other):
    """-1, 0 or 1 as the first version is before, equal to or behind the second."""
    a, b = read_version(one), read_version(other)
    if a[0] != b[0]:
        return -1 if a[0] < b[0] else 1
    return compare_parts(a[1], b[1]) or compare_parts(a[2], b[2])


def equal(one, other):
    """Whether two texts are versions, and equal in order."""
    try:
        return compare(one, other) == 0
    except Fault:
        return False


in_order = functools.cmp_to_key(compare)


def split_rebuild(text):
    """The base and the number of a rebuild, or the text and 0."""
    found = re.fullmatch(r"(.+)\+b([1-9][0-9]{0,3})", text, re.S)
    return (found[1], int(found[2])) if found else (text, 0)


def base_text(version):
    """A package's own version without the `+bN` of a rebuild; of nothing but that, itself."""
    epoch, colon, rest = version.partition(":")
    if not colon:
        epoch, rest = "", version
    front, mark, digits = rest.rpartition("+b")
    if not mark or not digits.isdigit() or digits[0] == "0" or int(digits) > MOST:
        return version
    if front == "" and (not colon or int(epoch) == 0):
        return version
    return f"{epoch}{colon}{front}"


def matches(word, arch):
    """Whether a word of an Architecture list means the architecture: its name, OS and CPU."""
    name, os, cpu = arch
    return word in (name, "any", f"{os}-any", f"any-{cpu}")


class Alternative:
    """One name of a relation, with its version and the lists behind it."""

    def __init__(self, name, operator, version, archs, profiles):
        self.name, self.operator, self.version = name, operator, version
        self.archs, self.profiles = archs, profiles

    def is_active(self, arch):
        """Whether it counts on the architecture, with no build profile active."""
        if self.archs is not None:
            negated, words = self.archs
            if negated == any(matches(word, arch) for word in words):
                return False
        return not self.profiles or any(all(negated for negated in words) for words in self.profiles)

    def allows(self, version):
        """Whether an offer of this version, or of none, satisfies the restriction."""
        if self.operator is None:
            return True
        if version is None:
            return False
        try:
            order = compare(version, self.version)
        except Fault:
            base = split_rebuild(version)[0]
            order = compare(version.replace(base, base + "0", 1), self.version)
        return {"<<": order < 0, "<=": order <= 0, "=": order == 0, ">=": order >= 0, ">>": order > 0}[self.operator]


SPACE = " \t\n"


def read_alternative(text):
    """One alternative, read from the left."""
    text = text.strip(SPACE)
    name = re.match(r"[a-z0-9+.-]*", text)[0]
    rest = text[len(name):]
    if rest.startswith(":"):
        qualifier = re.match(":[a-z0-9-]+", rest)
        if not qualifier:
            raise Fault("BadName")
        rest = rest[len(qualifier[0]):]
    rest = rest.lstrip(SPACE)
    if not NAME.fullmatch(name) or rest[:1] not in ("", "(", "[", "<"):
        raise Fault("BadName")
    operator = version = archs = None
    profiles = []
    if rest.startswith("("):
        operator = re.match("[<=>]*", rest[1:].lstrip(SPACE))[0]
        if operator not in ("<<", "<=", "=", ">=", ">>"):
            raise Fault("BadOperator")
        inside, closed, rest = rest[1:].lstrip(SPACE)[len(operator):].partition(")")
        version = inside.strip(SPACE)
        try:
            read_version(version)
        except Fault:
            closed = ""
        if not closed:
            raise Fault("BadVersion")
        rest = rest.lstrip(SPACE)
    if rest[:1] not in ("", "[", "<"):
        raise Fault("BadArchList")
    if rest.startswith("["):
        inside, closed, rest = rest[1:].partition("]")
        words = re.split(f"[{SPACE}]+", inside.strip(SPACE))
        plain = all(re.fullmatch("[a-z0-9-]+", word) for word in words)
        if not closed or not plain and not all(re.fullmatch("![a-z0-9-]+", word) for word in words):
            raise Fault("BadArchList")
        archs = (not plain, [word.lstrip("!") for word in words])
        rest = rest.lstrip(SPACE)
        if rest[:1] not in ("", "<"):
            raise Fault("BadArchList")
    while rest:
        inside, closed, behind = rest[1:].partition(">")
        words = re.split(f"[{SPACE}]+", inside.strip(SPACE))
        if not rest.startswith("<") or not closed or not all(re.fullmatch("!?[^!<]+", word) for word in words):
            raise Fault("BadProfile")
        profiles.append([word.startswith("!") for word in words])
        rest = behind.lstrip(SPACE)
    return Alternative(name, operator, version, archs, profiles)


def read_relation(text):
    """The members of a relation, each a list of alternatives."""
    members = [member for member in text.split(",") if member.strip(SPACE)]
    if not members:
        raise Fault("Empty")
    return [[read_alternative(part) for part in member.split("|")] for member in members]
