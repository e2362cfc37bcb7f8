#!/usr/bin/env python3
"""Brings the repository's own definitions and lemmas to the spelling of today's Rattle: words in snake case, facts and types in
camel case, a dash only between two names. Run once, after port.py, at the top of the repository.

usage: tools/respell.py [--dry]
"""
import os
import re
import sys

WORD = r"[^\s(){}\[\];,.`\"«»◌@]+"
DECLARED = re.compile(r"^([ ]*)((?:abbrev |unfoldable |pub |record |data )*)(" + WORD + r")((?: *[({][^:]*?:[^)}]*[)}])*) : (.*)$")
NAMES = re.compile(r"^([ ]*)((?:abbrev |unfoldable |pub |record |data )*)((?:" + WORD + r" )+): (.*)$")
# functions of the library after which lemmas are named
LIBRARY = set("length map append take drop get_or set sum add mul sub min max le lt eq and or reverse concat filter any all "
              "some none ok err cond not abs cons nil zero one suc".split())


def files(root, *ends):
    for folder, dirs, names in os.walk(root):
        dirs[:] = sorted(d for d in dirs if d not in ("out", ".git", "target"))
        for name in sorted(names):
            if name.endswith(ends):
                yield os.path.join(folder, name)


def read(path):
    with open(path, encoding="utf-8") as f:
        return f.read()


def snake(word):
    word = re.sub(r"([a-z0-9])([A-Z])", r"\1_\2", word)
    return word if word[:1].isupper() else word.lower()


def declared():
    """Every name that a file of specs/ declares, and whether it is a definition (a lemma is named after those)."""
    all_names, definitions, facts = {}, set(), set()
    for path in files("crates", ".antt"):
        if "/specs/" not in path:
            continue
        lines = read(path).split("\n")
        for k, line in enumerate(lines):
            m = NAMES.match(line)
            if not m or line.lstrip().startswith("--"):
                continue
            marks, names, type_ = m[2], m[3].split(), m[4]
            joined = k + 1
            whole = type_
            while joined < len(lines) and lines[joined].startswith("    ") and lines[joined].lstrip().startswith("→"):
                whole += " " + lines[joined].strip()
                joined += 1
            for name in names:
                all_names.setdefault(name, path)
                if "abbrev" in marks or "unfoldable" in marks or "record" in marks or "data" in marks:
                    definitions.add(name)
                    if re.search(r"(^|→ )Type 0$", whole) and name[:1].islower():
                        facts.add(name)
    return all_names, definitions, facts


def library_names():
    """Names that files import from the library, by file."""
    found = {}
    for path in files("crates", ".antt", ".rt"):
        names = set()
        for m in re.finditer(r"(?m)^\s*(?:ghost )?(?:pub )?use Rattle\.std\.[\w.'-]+\.\{([^}]*)\}", read(path)):
            for word in m[1].split(","):
                names.add(word.strip().split(" as ")[-1])
        found[path] = names
    return found


def respelled(name, names, facts):
    if name[:1].isupper() and "-" not in name:
        return name
    if name in facts:
        return "".join(w[:1].upper() + w[1:] for w in re.split(r"[-_]", name))
    parts = [snake(p) for p in name.split("-")]
    out = parts[0]
    for left, right in zip(parts, parts[1:]):
        joins = left in names and right in names
        out += ("-" if joins else "_") + right
    return out


def renaming():
    all_names, definitions, facts = declared()
    spelled = {snake(d) for d in definitions} | LIBRARY
    turned = {}
    for name in all_names:
        if not re.match(r"^[A-Za-z]", name):
            continue
        to = respelled(name, spelled, facts)
        if to != name:
            turned[name] = to
    # where two names fall together, the definition has the word and the lemma gets `_lem`
    library = set().union(*library_names().values())
    by_word = {}
    for name in all_names:
        by_word.setdefault(turned.get(name, name), []).append(name)
    for word, names in by_word.items():
        if len(names) > 1 or word in library and any(n in turned for n in names):
            names.sort(key=lambda n: (n not in definitions, not re.search("[a-z][A-Z]", n), n in turned, n))
            for k, name in enumerate(names):
                if k or word in library:
                    turned[name] = word + "_lem" * max(k, 1)
                    print(f"falls together: {name} -> {turned[name]}", file=sys.stderr)
    return turned


TOKEN = re.compile(r"[^\s(){}\[\];,.`\"«»◌@:/]+")


def turned_text(text, turned, kept):
    return TOKEN.sub(lambda m: turned[m[0]] if m[0] in turned and m[0] not in kept else m[0], text)


def turned_ticks(text, turned):
    return re.sub(r"`[^`\n]*`", lambda m: turned_text(m[0], turned, ()), text)


def turn_antt(text, turned, kept):
    out = []
    for line in text.split("\n"):
        code, dash, comment = line, "", ""
        m = re.search(r"(^|\s)--(\s|$)", line)
        if m:
            at = m.start() + len(m[1])
            code, comment = line[:at], line[at:]
        out.append(turned_text(code, turned, kept) + turned_ticks(comment, turned))
    return "\n".join(out)


def turn_rt(text, turned, kept):
    """Names in ghost lines and clauses; in comments those between backticks."""
    out, depth = [], 0
    for line in text.split("\n"):
        stripped = line.strip()
        if stripped.startswith("//"):
            out.append(turned_ticks(line, turned))
            continue
        clause = depth > 0 or re.match(r"(requires|ensures|ghost)\b", stripped)
        if clause:
            depth += line.count("{") - line.count("}")
            out.append(turned_text(line, turned, kept))
        else:
            depth = 0
            out.append(line)
    return "\n".join(out)


def main():
    turned, kept = renaming(), library_names()
    if "--dry" in sys.argv:
        for name in sorted(turned):
            print(name, turned[name])
        return
    for path in files("crates", ".antt", ".rt"):
        text = read(path)
        new = (turn_antt if path.endswith(".antt") else turn_rt)(text, turned, kept[path])
        if new != text:
            with open(path, "w", encoding="utf-8") as f:
                f.write(new)
    for path in files("crates", ".edit"):
        text = read(path)
        new = "\n".join(turned_text(l, turned, ()) if l.startswith(("old:", "new:")) and "/specs/" in text or l.startswith(("old:", "new:")) and "specs/" in text else l for l in text.split("\n"))
        if new != text:
            with open(path, "w", encoding="utf-8") as f:
                f.write(new)
    for path in ["README.md", *files("docs", ".md")]:
        text = read(path)
        new = turned_ticks(text, turned)
        if new != text:
            with open(path, "w", encoding="utf-8") as f:
                f.write(new)


main()
