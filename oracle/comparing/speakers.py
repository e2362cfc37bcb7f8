"""Programs that speak the protocol, run over many cases at once."""
import os
import shlex
import subprocess

HERE = os.path.dirname(os.path.dirname(os.path.abspath(__file__)))
RUST = os.path.join(os.path.dirname(HERE), "target", "oracle", "oracle")
LIBRARY = os.path.join(os.path.dirname(HERE), "target", "oracle", "library")
LONGEST = 600      # seconds that a speaker may take over one lot of cases
BLOCKS = ("state", "listing", "raw")


class SpeakerError(Exception):
    """A speaker that ended badly or answered too little."""


class Speaker:
    """`rust`, `library`, `reading`, `reading:NAME` with a wrong reading on, or any command line."""

    def __init__(self, name):
        self.name = name
        self.lenient = name == "rust"      # answers calls that document 01 refuses
        if name == "rust":
            if not os.access(RUST, os.X_OK):
                raise SpeakerError("target/oracle/oracle is missing; run oracle/build")
            self.command = [RUST]
        elif name == "library":
            if not os.access(LIBRARY, os.X_OK):
                raise SpeakerError("target/oracle/library is missing; run bin/library and oracle/build")
            self.command = [LIBRARY]
        elif name == "reading" or name.startswith("reading:"):
            self.command = [os.path.join(HERE, "reading")]
            for wrong in name.split(":")[1:]:
                self.command += ["--wrong", wrong]
        else:
            self.command = shlex.split(name)

    def leaves(self, text):
        """The lines of leaf cases, each with its result."""
        return self.run(text, ["leaves"])

    def run(self, text, more=()):
        try:
            done = subprocess.run(self.command + list(more), input=text, capture_output=True, text=True,
                                  timeout=LONGEST)
        except (OSError, subprocess.TimeoutExpired) as why:
            raise SpeakerError(f"{self.name}: {why}") from why
        if done.returncode:
            said = done.stderr.strip().split("\n")[0]
            raise SpeakerError(f"{self.name}: {said or done.returncode}")
        return done.stdout

    def answers(self, cases):
        """The answers of each case's commands; a case is a list of texts."""
        text = "".join("reset\n" + "".join(c + "\n" for c in case) for case in cases)
        lines = iter(self.run(text).splitlines())
        return [[self.block(lines) for _ in range(len(case) + 1)][1:] for case in cases]

    def block(self, lines):
        """One answer: a line, or a block down to its `end`."""
        line = next(lines, None)
        if line is None:
            raise SpeakerError(f"{self.name}: fewer answers than commands")
        if line not in BLOCKS:
            return line
        out = [line]
        for line in lines:
            out.append(line)
            if line == "end":
                return "\n".join(out)
        raise SpeakerError(f"{self.name}: a block without end")
