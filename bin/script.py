"""What the scripts of bin/ have in common: their words, the program, files, and how they end.

A script's `main(words)` returns its exit status or raises a `Fault`; `run(main, __doc__)` ends it.
"""

import contextlib
import errno
import os
import shutil
import sys

# The name that is in front of what the script says, without the package's transdesk-.
NAME = os.path.basename(os.path.realpath(sys.argv[0]))


class Fault(Exception):
    """What is wrong with what was given: one line, and the exit status."""

    def __init__(self, text, status=2):
        super().__init__(text)
        self.status = status


def say(text, name=f"{NAME}: "):
    """Says a line on standard error; what can't be written there is left out."""
    if sys.stderr is not None:
        with contextlib.suppress(OSError):
            os.write(sys.stderr.fileno(), f"{name}{text}\n".encode(errors="replace"))


def tell(text):
    """Writes to standard output, at once."""
    if sys.stdout is None:
        raise Fault("standard output: it is closed", 5)
    try:
        sys.stdout.buffer.write(text.encode())
        sys.stdout.flush()
    except OSError as why:
        # (of a closed pipe nothing is said: nobody wants to read on)
        is_pipe = why.errno == errno.EPIPE
        raise Fault("" if is_pipe else f"standard output: {why.strerror}", 5) from why


def words_of(words, values=(), flags=(), needed=()):
    """The options by their names, those of `flags` as True, and the other words in their order.

    A value is the next word, or what comes after `=`; of an option that is there twice the last
    counts. After `--` no word is an option. `needed` names the other words, of which each has to
    be there, and no more; with None there may be any.
    """
    options, others, rest = {}, [], list(words)
    while rest:
        word = rest.pop(0)
        name, equals, value = word.partition("=")
        if word == "--":
            others += rest
            break
        if not word.startswith("-") or word == "-":
            others.append(word)
        elif word in [f"--{it}" for it in flags]:
            options[word[2:]] = True
        elif name not in [f"--{it}" for it in values]:
            raise Fault(f"{word}: no such option (--help says which there are)", 3)
        elif not equals and not rest:
            raise Fault(f"{name} needs a value", 3)
        else:
            options[name[2:]] = value if equals else rest.pop(0)
    if needed is not None and len(others) < len(needed):
        raise Fault(f"{needed[len(others)]} is needed (--help says which words there are)", 3)
    if needed is not None and len(others) > len(needed):
        raise Fault(f"{others[len(needed)]}: one word too many (--help says which there are)", 3)
    return options, others


def program():
    """The built transdesk: PROGRAM of the environment, that of this checkout, or on the PATH."""
    top = os.path.join(os.path.dirname(os.path.realpath(__file__)), "..")
    # (./transdesk isn't asked: if dist/ is of other sources it would begin to build)
    beside = [f"{top}/crates/transdesk/out/transdesk", f"{top}/dist/transdesk"]
    found = [it for it in beside if os.access(it, os.X_OK)]
    found = os.environ.get("PROGRAM") or (found[0] if found else "transdesk")
    if not shutil.which(found):
        raise Fault(f"there is no program {found}", 70)
    return found


def text_of(data, name):
    """The text of some bytes; `name` says whose they are."""
    try:
        return data.decode("utf-8")
    except UnicodeDecodeError as why:
        raise Fault(f"{name}: byte {why.start} is no text (UTF-8)") from why


def given():
    """The text on standard input."""
    if sys.stdin is None:
        raise Fault("standard input: it is closed")
    try:
        return text_of(sys.stdin.buffer.read(), "standard input")
    except OSError as why:
        raise Fault(f"standard input: {why.strerror}") from why


def read(path):
    """The text of a file."""
    try:
        with open(path, "rb") as file:
            return text_of(file.read(), path)
    except OSError as why:
        raise Fault(f"{path}: {why.strerror}") from why


def replace(path, text):
    """Puts a file in its place whole: it is written beside it, is safe on the disk, and renamed."""
    try:
        with open(f"{path}.new", "wb") as file:
            file.write(text.encode())
            file.flush()
            os.fsync(file.fileno())
        os.rename(f"{path}.new", path)
        folder = os.open(os.path.dirname(path) or ".", os.O_RDONLY)
        try:
            os.fsync(folder)
        finally:
            os.close(folder)
    except OSError as why:
        with contextlib.suppress(OSError):
            os.unlink(f"{path}.new")
        raise Fault(f"{path}: {why.strerror}", 5) from why


def _ended(main, about):
    """The status with which a script ends."""
    words = sys.argv[1:]
    # (what comes after -- is no script's own)
    own = words[: words.index("--")] if "--" in words else words
    if "--help" in own or "-h" in own:
        say(about.strip(), "")
        return 3
    try:
        return main(words)
    except Fault as fault:
        if str(fault):
            say(fault)
        return fault.status
    except OSError as why:
        say(f"{why.filename or 'a file'}: {why.strerror}")
        return 5
    except KeyboardInterrupt:
        return 130


def run(main, about):
    """Ends the script as its main function does. `about` is what --help says."""
    status = _ended(main, about)
    if status == 5 and sys.stdout is not None:
        # (else the interpreter writes what is left, and says that it can't)
        os.dup2(os.open(os.devnull, os.O_WRONLY), sys.stdout.fileno())
    sys.exit(status)
