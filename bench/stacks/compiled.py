"""The targets of bin/targets, and their modules compiled as bin/library compiles them."""
import os
import platform
import shutil
import subprocess

from . import lines
from .frames import frames
from .listing import functions
from .state import Unknown


class Target:
    def __init__(self, top, name, triple, flags):
        self.name, self.triple, self.flags = name, triple, flags
        self.archive = os.path.join(top, "target", "lib", name, "libcftree.a")
        self.module = os.path.join(top, "target", "lib", name, "module.ll")
        self.cpu = next((f[6:] for f in flags if f.startswith("-mcpu=")), None)


def targets(top):
    """Every line of the table: name, triple, how structs cross, flags."""
    with open(os.path.join(top, "bin", "targets"), encoding="utf-8") as file:
        lines_of = [line.split() for line in file if line.strip() and not line.startswith("#")]
    return {words[0]: Target(top, words[0], words[1], words[3:]) for words in lines_of}


def clang():
    """The kit's, which bin/library compiles with."""
    rt = shutil.which("rt")
    if not rt:
        raise Unknown("rt, the Rattle kit's command, is not on the path: its clang compiles the module")
    home = os.environ.get("RATTLE_HOME") or os.path.dirname(os.path.dirname(os.path.realpath(rt)))
    return os.path.join(home, "on", platform.machine(), "toolchain", "bin", "clang")


def compiled(target, text, path):
    """The module to an object file, by the flags of the target."""
    with open(path + ".ll", "w", encoding="utf-8") as file:
        file.write(text)
    done = subprocess.run([clang(), f"--target={target.triple}", *target.flags, "-ffp-contract=off", "-ffunction-sections",
                           "-c", "-x", "ir", path + ".ll", "-o", path], capture_output=True, text=True)
    if done.returncode:
        raise Unknown(f"{target.name}: clang: {' '.join(done.stderr.split())[:300]}")
    return path


# what the archive of a processor without a unit calls by names of its own (station/soft.c)
OWN = {"__aeabi_dadd": "cftree_dadd", "__aeabi_dsub": "cftree_dsub"}


def with_own(marked, plain):
    """The module's functions calling the archive's own sums, and these with what they call; all as it is where it has none."""
    if not all(name in plain for name in OWN.values()):
        return marked
    for each in (i for f in marked.values() for i in f.code):
        each.callee = OWN.get(each.callee, each.callee)
    found, more = {}, list(OWN.values())
    while more:
        name = more.pop()
        if name in plain and name not in found:
            found[name] = plain[name]
            more += [i.callee for i in plain[name].code if i.callee]
    return {**marked, **found}


def text_of(functions_there):
    """The instructions as they stand, for a comparison."""
    return {name: [(i.address, i.op, i.words, i.callee) for i in f.code] for name, f in functions_there.items()}


class Code:
    """The frames of an archive, each instruction with its marks, and what the marks were taken from."""

    def __init__(self, target, archive, text, folder):
        self.kind, plain = functions(archive, target.cpu)
        marked = None
        for turn, names in enumerate((lines.SUMS, lines.PARTS, lines.JOINS)):
            path = compiled(target, lines.with_lines(text, names), os.path.join(folder, f"lines{turn}.o"))
            these = functions(path, target.cpu)[1]
            if marked and text_of(these) != text_of(marked):
                raise Unknown(f"{target.name}: compiled with other lines, the module gives other code")
            marked = marked or these
            lines.mark(marked, path, names)
        marked = with_own(marked, plain)
        self.frames, archived = frames(self.kind, marked), frames(self.kind, plain)
        self.same = text_of(plain) == text_of(marked)
        other = [n for n in set(archived) | set(self.frames)
                 if n not in archived or n not in self.frames or not archived[n].same(self.frames[n])]
        if other:
            raise Unknown(f"{target.name}: compiled with lines, the module has other frames than the archive: "
                          f"{', '.join(sorted(other))}; is the archive of this module, kit and table?")
        self.holders = {mark: sorted(n for n, f in self.frames.items() if any(mark in m for _, m in f.depths.values()))
                        for mark in ("rebuild", "sum")}


def asked(top, words, usage):
    """The targets of a command line, or all whose archive is there."""
    known = targets(top)
    if any(w not in known for w in words):
        raise Unknown(f"usage: {usage}, a target of {', '.join(known)}")
    there = [known[w] for w in words] or [t for t in known.values() if os.path.exists(t.archive)]
    if not there:
        raise Unknown("no target/lib/TARGET/libcftree.a is there: run bin/library")
    for target in there:
        if not os.path.exists(target.archive):
            raise Unknown(f"{target.archive} is missing: bin/library {target.name}")
    return there
