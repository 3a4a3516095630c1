#!/usr/bin/env python3
"""Spells the names of the repository's own definitions and lemmas as Rattle's library does: words in snake case. A dash stays
only where it joins the names of two definitions.

usage: spelling.py [--map FILE]     at the top of the repository, once, behind port.py

It takes the names that specs/ and the lemma files of proofs/ declare, and turns them in .antt and .rt files, in code spans of
the pages, and in the wrong programs. The names of Rust items stay. A name that would meet another in a file that has both is
printed, and stays in all files. --map writes each old and new name.
"""
import glob
import re
import sys

DECLARED = re.compile(r"^\s*(?:(?:abbrev|pub|unfoldable|private|data|record)\s+)*([^\s(){}.;,@\"«»:]+)\s*(?:\{[^{}]*\}\s*)*:(?=\s)")
WORD = re.compile(r"[^\W\d][\w'′]*(?:-[\w'′]+)*")
ALONE = r"(?<![\w'′.-])[^\W\d][\w'′]*(?:-[\w'′]+)*(?![\w'′-]|\.[^\W\d])(?! =[^=])"

# Lemmas whose name a definition gets.
LEMMAS = {"all_same": "all_same_lem", "too_long": "too_long_lem", "in-range": "in_range_lem"}
LIBRARY = {"length", "take", "drop", "set", "get_or", "sum", "map", "min", "max", "pow", "first"}


def read(path):
    with open(path, encoding="utf-8") as f:
        return f.read()


def ghosts(text):
    """What a file of Rust says in clauses and imports for them, and the names of parameters."""
    text = re.sub(r"(?m)//.*$", "", text)
    uses = re.findall(r"ghost use[^;]*;", text)
    clauses = re.findall(r"(?m)^ *(?:requires|ensures)\b[^{]*\{(.*)\}$", text)
    taken = re.findall(r"\b(\w+): ", text)
    return " ".join(uses + clauses + taken)


def declaring():
    for path in sorted(glob.glob("crates/*/specs/**/*.antt", recursive=True) + glob.glob("crates/*/proofs/*.antt")):
        yield path


def snake(word):
    word = re.sub(r"([a-zà-ÿ0-9])([A-Z])(?=[A-Z]|$)", r"\1_\2", word)
    word = re.sub(r"([A-Z])([A-Z])$", r"\1_\2", word)
    return re.sub(r"(?<=[a-zà-ÿ0-9])([A-Z])", lambda m: "_" + m.group(1).lower(), word).replace("′", "'")


def part(name):
    """A part of a name: a fact keeps its capital, and so does a symbol of one letter, as K."""
    if name[0].isupper():
        return name
    out = snake(name)
    return "_".join(p if p.isupper() and len(p) == 1 else p.lower() for p in out.split("_"))


def main():
    names, defined, lemmas = set(), set(), set()
    for path in declaring():
        for line in read(path).split("\n"):
            if line.lstrip().startswith("--"):
                continue
            m = DECLARED.match(line)
            if m:
                names.add(m.group(1))
                if "/specs/" in path:
                    defined.add(part(m.group(1)))
                else:
                    lemmas.add(m.group(1))
    known = defined | LIBRARY
    table = {}
    for name in sorted(names):
        if not WORD.fullmatch(name) or not (("-" in name) or re.search(r"[a-zà-ÿ0-9][A-Z]", name) or "′" in name):
            continue
        parts = [part(p) for p in name.split("-")]
        if name[0].isupper() and len(parts) == 1:
            continue
        new = parts[0]
        for p in parts[1:]:
            new += ("-" if new in known and p in known else "_") + p
        if new != name:
            table[name] = new
    files = sorted(p for p in glob.glob("crates/**/*", recursive=True) if p.endswith((".antt", ".rt", ".edit")) and "/out/" not in p)
    texts = {p: read(p) for p in files}
    # A lemma that would have its function's name gets `_lem`.
    kept = {new for new in table.values() if list(table.values()).count(new) > 1}
    for name in [n for n, new in table.items() if new in kept and "-" in n]:
        if name in lemmas:
            table[name] += "_lem"
    table.update(LEMMAS)
    # Words that stand alone, behind no dot and in front of none, and what a function of Rust takes.
    alone = {p: set(re.findall(ALONE, re.sub(r"(?m)--.*$", "", t) if p.endswith(".antt") else ghosts(t))) for p, t in texts.items()}
    for name, new in sorted(table.items()):
        for p in files:
            if not p.endswith(".edit") and name in alone[p] and new in alone[p]:
                print(f"meets: {name} -> {new}: {p}")

    def turn(text):
        return WORD.sub(lambda m: table.get(m.group(0), m.group(0)), text)

    def spans(text):
        return re.sub(r"`[^`\n]+`", lambda m: turn(m.group(0)), text)

    def code(text, comment):
        out = []
        for line in text.split("\n"):
            at = re.search(rf"(^|\s){comment}", line)
            head, tail = (line[:at.start()], line[at.start():]) if at else (line, "")
            out.append(turn(head) + spans(tail))
        return "\n".join(out)

    pages = sorted(glob.glob("docs/**/*.md", recursive=True) + ["README.md"])
    for path in files + pages:
        text = texts[path] if path in texts else read(path)
        if path.endswith(".antt"):
            new = code(text, "--")
        elif path.endswith(".rt"):
            new = code(text, "//")
        elif path.endswith(".edit"):
            new = turn(text)
        else:
            new = spans(text)
        if new != text:
            with open(path, "w", encoding="utf-8") as f:
                f.write(new)
    if "--map" in sys.argv:
        with open(sys.argv[sys.argv.index("--map") + 1], "w", encoding="utf-8") as f:
            f.writelines(f"{a}\t{b}\n" for a, b in sorted(table.items()))
    print(f"{len(table)} names")


main()
