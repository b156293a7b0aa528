#!/usr/bin/env python3
"""Brings the repository's own definitions, fields, constructors and lemmas to today's spelling: snake case, and a dash only between two names.

usage: python3 tools/respell.py [FOLDER]      FOLDER has crates/; it is this repository if left out. Run once, behind port.py.

Types and modules, names of Rattle source, what a check generates, strings and comments' prose keep their words. Names that would fall together keep apart by APART.
"""

import os
import re
import sys

BREAK = r"\s(){}\[\].,;\"`"
TOKEN = re.compile(rf"[^{BREAK}]+")
DECLARED = re.compile(rf"^\s*(?:(?:pub|abbrev|unfoldable|mutual)\s+)*([a-z][^{BREAK}:]*)(?:\s+\{{[^}}]*\}})?\s*:(?:\s|$)")
USE = re.compile(r"(?:^|\s)use\s+([\w.'·]+?)\.\{([^}]*)\}", re.S)

# names that one file alone gives, and that are a field's elsewhere
WITHIN = {
    "demand1/proofs/Histories.antt": [(r"(^\s*|\()is_open(?= [t:(])", r"\1is_open_lem")],
    "writing/proofs/Told.antt": [(r"\bis_open\b", "stands_open")],
    "moving/proofs/Growing.antt": [(r"(?<![.\w-])is-write(?! =)", "is_write_lem")],
    "appends_laws/proofs/ListPairs.antt": [(r"(?<![.\w-])is-longest(?! =)", "is_longest_lem")],
}
APART = {"lists-refused": "lists_refused_lem"}


BARE = {}


def files(root, endings):
    for folder, dirs, names in os.walk(os.path.join(root, "crates")):
        dirs[:] = sorted(d for d in dirs if d not in ("out", "must-fail"))
        for name in sorted(names):
            if name.endswith(endings):
                yield os.path.join(folder, name)


def is_answer(path):
    """A file of one function's proof: its names are the check's."""
    parts = path.split(os.sep)
    return "proofs" in parts and parts.index("proofs") < len(parts) - 2 and not path.endswith("Lib.antt")


def snake(part):
    return re.sub(r"(?<=[a-z0-9'])([A-Z])", lambda m: "_" + m.group(1).lower(), part)


def respelled(name, words):
    parts = [snake(p) for p in name.split("-")]
    new = parts[0]
    for left, right in zip(parts, parts[1:]):
        new += ("-" if left in words and right in words else "_") + right
    return new


def imports(text):
    for path, names in USE.findall(text):
        for name in names.split(","):
            yield path, name.split()[0] if name.split() else ""


def declared(text):
    for line in text.split("\n"):
        m = DECLARED.match(line)
        if m and not line.lstrip().startswith("--"):
            yield m.group(1)


def functions(text):
    """The definitions, which a dash may join."""
    for line in text.split("\n"):
        m = DECLARED.match(line)
        if m and not {"abbrev", "unfoldable"}.isdisjoint(line.split()[:2]):
            yield m.group(1)


def members(text, word):
    """The fields of records, or the constructors of data, which are Rust identifiers."""
    within = None
    for line in text.split("\n"):
        depth = len(line) - len(line.lstrip())
        if not line.strip() or line.lstrip().startswith("--"):
            continue
        if within is not None and depth <= within:
            within = None
        m = DECLARED.match(line)
        if within is not None and m:
            yield m.group(1)
        if word in line.split()[:2]:
            within = depth


def bare(text):
    """The names that stand in text with no dot before them."""
    return {m.group() for m in TOKEN.finditer(text) if text[m.start() - 1] != "."}


def meet(name, new_of, text_of, own):
    """Whether a file names both this and another that would be called the same."""
    others = {n for n in own if n != name and new_of[n] == new_of[name]}
    return any(name in names and not others.isdisjoint(names) for names in BARE.values())


def plan(root):
    own_crates = set(os.listdir(os.path.join(root, "crates")))
    own, foreign, tokens, text_of, fields, cases, defined = set(), {}, set(), {}, set(), set(), set()
    for path in files(root, (".antt", ".rt")):
        with open(path, encoding="utf-8") as f:
            text = text_of[path] = f.read()
        tokens.update(TOKEN.findall(text))
        BARE[path] = bare(text)
        there = foreign[path] = set()
        for module, name in imports(text):
            crate = module.split(".")[1] if module.startswith("Rattle.") else ""
            if crate not in own_crates:
                there.add(name)
        if path.endswith(".antt") and not is_answer(path):
            own.update(declared(text))
            defined.update(functions(text))
            fields.update(members(text, "record"))
            cases.update(members(text, "data"))
    words = {snake(n) for n in defined if "-" not in n}
    words.update(n for there in foreign.values() for n in there if re.fullmatch(r"[a-z]\w*", n))
    new_of = {name: respelled(name, set() if name in fields | cases else words) for name in own}
    # a lemma or a constructor that would have a definition's name
    taken = {new_of[n] for n in defined | fields}
    for name in sorted(own - defined - fields):
        if new_of[name] in taken and meet(name, new_of, text_of, own):
            new_of[name] += "_lem"
    new_of.update(APART)
    return own, {a: b for a, b in new_of.items() if a != b}, tokens, foreign, text_of


def meetings(own, new_of, tokens):
    seen = {}
    for old, new in sorted(new_of.items()):
        if new in seen:
            yield f"{old} and {seen[new]} both become {new}"
        seen[new] = old
        if new in tokens:
            yield f"{old} becomes {new}, which stands already" + (" (declared)" if new in own else "")


def turned(text, new_of, keep):
    """The names of text in their new spelling; behind a dot stands a field, which meets nothing."""

    def turn(m):
        name = m.group()
        if name not in new_of or name in keep:
            return name
        new = new_of[name]
        return new[:-4] if new.endswith("_lem") and text[m.start() - 1] == "." else new

    return TOKEN.sub(turn, text)


def main(argv):
    root = argv[0] if argv else os.path.dirname(os.path.dirname(os.path.realpath(__file__)))
    own, new_of, tokens, foreign, text_of = plan(root)
    met = list(meetings(own, new_of, tokens))
    if "--list" in argv[1:]:
        print("\n".join(f"{a} {b}" for a, b in sorted(new_of.items())))
        return 0
    print(f"respell: {len(new_of)} names")
    for line in met:
        print("meets: " + line)
    if "--dry" in argv[1:]:
        return 0
    for path, text in text_of.items():
        keep = set(foreign[path])
        if is_answer(path):
            keep.update(declared(text))
        new = text
        for ending, lines in WITHIN.items():
            if path.endswith(ending):
                for old, put in lines:
                    new = re.sub(old, put, new, flags=re.M)
        new = turned(new, new_of, keep)
        if new != text:
            with open(path, "w", encoding="utf-8") as f:
                f.write(new)
    return 0


if __name__ == "__main__":
    raise SystemExit(main(sys.argv[1:]))
