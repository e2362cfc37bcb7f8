"""Which instructions of the compiled code are a distance sum's, a rebuild's, a refit's, an insert's or of a merge in the fold,
wherever the compiler has put them.

The module is compiled again with line numbers, which compilers carry through inlining and which change no code: what is
looked for has a line of its own, everything else line 1. Only functions that lead to it have lines, so that what is inlined
into a place with a line, and has none itself, takes that one. Where code of two lines became one instruction the line is 0.
"""
import re

from .listing import told
from .state import Unknown

# a compile each: functions, their mark and line; of a kernel only the additions count
# (the additions stand in kernels::sum, which these two lend a closure: they are theirs where it is inlined into them)
SUMS = {"kernels::sq_euclidean": ("sum", 2), "kernels::manhattan": ("sum", 2)}
PARTS = {"rebuild::rebuild": ("rebuild", 2), "refit::refit": ("refit", 3),
         "insert::insert": ("insert", 4), "insert::insert_all": ("insert", 4)}
JOINS = {"refold::fold::join": ("join", 2)}
DEFINE = re.compile(r'^define .*?@(?:"([^"]+)"|([\w.]+))\(.*\{$')
CALLED = re.compile(r'\bcall\b.*?@(?:"([^"]+)"|([\w.]+))\(')
ROW = re.compile(r"0x([0-9a-f]+)\s+(\d+)\s.*?(end_sequence)?$")


def part(name):
    """The mark of a function that was not inlined; a compiler may make variants of it, NAME.1 and so on."""
    return {**PARTS, **JOINS}.get(name.split(".")[0], ("",))[0]


def bodies(text):
    """The module's lines as [(function or None, line)]."""
    now, out = None, []
    for line in text.split("\n"):
        if found := DEFINE.match(line):
            now = found[1] or found[2]
        out.append((now, line))
        if line == "}":
            now = None
    return out


def leading_to(lines, names):
    """The functions by which these can be reached, and these."""
    calls = [(name, found[1] or found[2]) for name, line in lines if name and (found := CALLED.search(line))]
    reached, before = set(names), set()
    while reached != before:
        before = set(reached)
        reached |= {caller for caller, callee in calls if callee in reached}
    return reached


def with_lines(text, marked):
    """The module with line numbers."""
    lines = bodies(text)
    there = {name for name, _ in lines}
    if missing := [n for n in marked if n not in there]:
        raise Unknown(f"{', '.join(missing)}: not in the module; bench/stacks/lines.py names it")
    first = 1 + max([int(n) for n in re.findall(r"^!(\d+) = ", text, flags=re.M)] or [0])
    number = {name: first + 4 + 3 * i for i, name in enumerate(sorted(leading_to(lines, marked)))}
    out = []
    for name, line in lines:
        if name in number:
            if DEFINE.match(line):
                line = f"{line[:-1]}!dbg !{number[name]} {{"
            elif re.match(r"  \S", line) and not line.endswith("["):   # a switch ends with its `]`
                own = name in marked and (marked is not SUMS or " fadd " in line)
                line += f", !dbg !{number[name] + (2 if own else 1)}"
        out.append(line)
    return "\n".join(out + metadata(marked, number, first)) + "\n"


def metadata(marked, number, first):
    """What LLVM wants to know of a source: a unit, a file, its version, and of each function itself and its two lines."""
    out = [f"!llvm.dbg.cu = !{{!{first}}}", f"!llvm.module.flags = !{{!{first + 2}, !{first + 3}}}",
           f"!{first} = distinct !DICompileUnit(language: DW_LANG_C99, file: !{first + 1}, emissionKind: LineTablesOnly)",
           f'!{first + 1} = !DIFile(filename: "module", directory: "/")',
           f'!{first + 2} = !{{i32 2, !"Debug Info Version", i32 3}}',
           f'!{first + 3} = !{{i32 7, !"Dwarf Version", i32 4}}']
    for name, n in number.items():
        out += [f'!{n} = distinct !DISubprogram(name: "{name}", scope: !{first + 1}, file: !{first + 1}, line: 1, '
                f"type: !DISubroutineType(types: !{{}}), spFlags: DISPFlagDefinition, unit: !{first})",
                f"!{n + 1} = !DILocation(line: 1, scope: !{n})",
                f"!{n + 2} = !DILocation(line: {marked.get(name, ('', 1))[1]}, scope: !{n})"]
    return out


def rows(path):
    """The line table of an object: of each section, the addresses from which on a line holds."""
    text = told("llvm-objdump", "-r", path).partition("RECORDS FOR [.debug_line]:")[2].partition("\n\n")[0]
    sections = re.findall(r"^[0-9a-f]+ R_\w+\s+(\S+)$", text, flags=re.M)
    tables = [[]]
    for line in told("llvm-dwarfdump", "--debug-line", path).splitlines():
        if found := ROW.match(line):
            tables[-1].append((int(found[1], 16), int(found[2])))
            if found[3]:
                tables.append([])
    if len(sections) != len(tables) - 1:
        raise Unknown(f"{path}: {len(tables) - 1} line tables of {len(sections)} sections")
    return dict(zip(sections, tables))


def mark(functions, path, marked):
    """Puts the marks on the instructions."""
    names, tables = dict((line, name) for name, line in marked.values()), rows(path)
    for function in functions.values():
        table, now = tables.get(function.section, []), 0
        for each in function.code:
            while now < len(table) and table[now][0] <= each.address:
                now += 1
            line = table[now - 1][1] if now else 0
            if line in names:
                each.marks.add(names[line])
