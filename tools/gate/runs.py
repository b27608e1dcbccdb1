"""Runs the built program in a folder of its own, and compares how it ends with what is wanted."""

import os
import subprocess

NOTHING = b""
UNREAD = b"transdesk: input: cannot read\n"
UNWRITTEN = b"transdesk: cannot write\n"
TOO_LONG = b"transdesk: input: TooLong\n"
SECONDS = 60


class Runs:
    """Runs of a program, how many they are, and how many of them differ.

    The end of a run is a tuple: exit status, standard output, standard error.
    """

    def __init__(self, program, room):
        self.program, self.room = os.path.abspath(program), room
        self.ran = self.differing = 0

    def put(self, name, text):
        """Writes a file into the folder of the runs; its path."""
        path = f"{self.room}/{name}"
        with open(path, "wb") as it:
            it.write(text if isinstance(text, bytes) else text.encode())
        return path

    def end(self, words, given=None, **how):
        """How the program ends that is called by these words; its status is None if it doesn't end.
        Standard input is the file of this path, or a stream. Without one it is a folder, which
        can't be read: a run that reads it ends otherwise."""
        how = {"stdout": subprocess.PIPE, "stderr": subprocess.PIPE, "cwd": self.room, **how}
        stream = given if isinstance(given, int) else os.open(given or self.room, os.O_RDONLY)
        how |= {"stdin": stream, "timeout": SECONDS, "check": False}
        try:
            done = subprocess.run([self.program, *words], **how)
        except subprocess.TimeoutExpired:
            return None, NOTHING, f"no end in {SECONDS} seconds".encode()
        finally:
            if not isinstance(given, int):
                os.close(stream)
        return done.returncode, done.stdout or NOTHING, done.stderr or NOTHING

    def differs(self, what):
        self.differing += 1
        print(f"differs: {what}")

    def compare(self, what, found, status, stdout=NOTHING, stderr=NOTHING):
        """Compares how a run ended with what is wanted."""
        self.ran += 1
        if found[0] != status:
            self.differs(f"{what}: exit status {found[0]}, not {status}")
        if found[1] != stdout:
            self.differs(f"{what}: standard output")
        if found[2] != stderr:
            self.differs(f"{what}: standard error: {found[2].decode(errors='replace').rstrip()}")

    def report(self):
        """Prints the counts; the exit status of the tool."""
        print(f"ran {self.ran}, differing {self.differing}")
        return 1 if self.differing or not self.ran else 0
