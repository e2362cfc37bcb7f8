"""An archive's machine code, function by function, as llvm-objdump reads it."""
import re
import shutil
import subprocess

from .state import Unknown, split

SECTION = re.compile(r"Disassembly of section (.+):$")
LABEL = re.compile(r"([0-9a-f]+) <(.+)>:$")
RELOCATION = re.compile(r"\s+[0-9a-f]+:\s+(R_\w+)\s+(.+?)([-+]0x[0-9a-f]+)?$")
DATA = re.compile(r"\s*[0-9a-f]+:\s.*\t\.(word|short|byte|long)\b")
CODE = re.compile(r"\s*([0-9a-f]+):\s+(\S+)(?:\s+(.*))?$")
REMARK = re.compile(r"\s+(@|//|;|# ).*$")


class Instruction:
    def __init__(self, address, op, words):
        self.address, self.op, self.operands, self.words = address, op, split(words), words
        self.callee = None   # the symbol that the linker puts in, where it is a branch's
        self.marks = set()   # what it is part of (lines.py)


class Function:
    def __init__(self, name, section):
        self.name, self.section, self.code = name, section, []


def told(tool, *words):
    """What one of LLVM's tools prints; they read the code of every machine."""
    path = shutil.which(tool)
    if not path:
        raise Unknown(f"{tool} is missing: apt-get install llvm")
    done = subprocess.run([path, *words], capture_output=True, text=True)
    if done.returncode:
        raise Unknown(f"{tool}: {' '.join(done.stderr.split())[:200]}")
    return done.stdout


def code_bytes(path):
    """Bytes of code, and of constants beside it."""
    code = constants = 0
    for line in told("llvm-objdump", "-h", path).splitlines():
        found = re.match(r"\s*\d+ (\S+)\s+([0-9a-f]{8}) [0-9a-f]+ (TEXT)?", line)
        if found and found[3]:
            code += int(found[2], 16)
        elif found and found[1].startswith(".rodata"):
            constants += int(found[2], 16)
    return code, constants


def disassembled(path, cpu=None):
    """The format that objdump names, and its text: instructions and relocations."""
    words = ["-d", "-r", "--no-show-raw-insn"] + ([f"--mcpu={cpu}"] if cpu else [])
    kind = re.search(r"file format (\S+)", told("llvm-objdump", "-h", path))
    if not kind:
        raise Unknown(f"{path}: no object file")
    if kind[1] == "elf64-x86-64":
        words.append("--x86-asm-syntax=intel")
    return kind[1], told("llvm-objdump", *words, path)


class Reader:
    """Takes the text of objdump line by line."""

    def __init__(self):
        self.functions, self.section, self.now = {}, None, None

    def take(self, text):
        if found := SECTION.match(text):
            self.section, self.now = found[1], None
        elif found := LABEL.match(text):
            if not found[2].startswith("$"):   # not one of Arm's marks of code and data
                self.begin(found[2])
        elif self.now and RELOCATION.match(text):
            self.relocate(text)
        elif self.now and not DATA.match(text) and (found := CODE.match(text)):
            if "<unknown>" in text:
                raise Unknown(f"{self.now.name}+0x{found[1]}: llvm-objdump does not know this instruction")
            words = REMARK.sub("", " " + (found[3] or "")).strip()
            self.now.code.append(Instruction(int(found[1], 16), found[2], words))

    def begin(self, name):
        if name in self.functions:
            raise Unknown(f"{name}: two functions have this name")
        self.now = self.functions[name] = Function(name, self.section)

    def relocate(self, text):
        """A branch whose target the linker puts in; other relocations are of data."""
        last = self.now.code[-1]
        _, symbol, offset = RELOCATION.match(text).groups()
        if not re.match(r"b|j|call|cb|tb", last.op):
            return
        if offset not in (None, "-0x4"):   # x86-64 counts from the branch's own last four bytes
            raise Unknown(f"{self.now.name}+{last.address:#x}: {last.op} into the middle of {symbol}")
        last.callee = symbol


def functions(path, cpu=None):
    """The format, and every function by its name, callees by the names of functions too."""
    kind, text = disassembled(path, cpu)
    reader = Reader()
    for line in text.splitlines():
        reader.take(line)
    if not reader.functions:
        raise Unknown(f"{path}: no code")
    of_section = {f.section: f.name for f in reader.functions.values() if f.code and f.code[0].address == 0}
    for function in reader.functions.values():
        for each in function.code:
            each.callee = of_section.get(each.callee, each.callee)
    return kind, reader.functions
