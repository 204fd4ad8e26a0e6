#!/usr/bin/env python3
"""Spells the definitions and lemmas of this repository in snake case, as the library spells its own.

usage: tools/respell.py [FOLDER]

It goes over the crates of FOLDER (else of this checkout), once, after the toolchain's own script, and writes files in
place. It turns camel case and dashes (`laidIn`, `prune-keeps`) into underscores (`laid_in`, `prune_keeps`):

- in specs/ and in the lemma files of proofs/: each name that the library does not have;
- in the proof of a function: the names that come from such files, the fields of their records, and the proof's own name;
- in src/: the names of the clauses; comments, where they name a definition;
- in must-fail edits: the texts that stand in those files.

Types and modules keep their camel case, functions of src/ their names. It stops if two names would fall together.
"""
import glob
import os
import re
import sys

ROOT = os.path.abspath(sys.argv[1]) if len(sys.argv) > 1 else os.path.dirname(os.path.dirname(os.path.abspath(__file__)))
CRATES = os.path.join(ROOT, "crates")

TOKEN = re.compile(r'"(?:[^"\\]|\\.)*"|--[^\n]*|[^\s(){}\[\];,.`"]+|\.|.', re.DOTALL)
CAMEL = re.compile(r"^[a-z][a-z0-9]*[A-Z]")
DASHED = re.compile(r"[A-Za-z0-9₀-₉'→←]-[A-Za-z0-9]")
GENERATED = re.compile(r"^Rattle\.\w+\.proofs\.(?:\w+\.)*?\w+\.(?:Tie|Statement|Kinds|Reads|Goals|Given|Rules)$")


# Names that would fall together with another of their file get one of their own.
APART = {
    "few-lifelines": "has_few_lifelines",
    "few-messages": "has_few_messages",
    "few-nodes": "has_few_nodes",
    "loop-in": "loop_in_lem",
    "on-right": "at_right",
    "order-between": "order_between_lem",
    "pair-in": "pair_in_lem",
    "pruned-alt": "pruned_alt_keeps",
    "pruned-loop": "pruned_loop_keeps",
    "trailer-byte": "trailer_byte_lem",
}
APART_IN = {
    "bench_read/proofs/Answers.antt": {"read_out": "read_out_lem"},
    "write_spec/proofs/Read.antt": {"in_order": "in_order_lem"},
}


def is_old(name):
    return bool(CAMEL.match(name) or DASHED.search(name))


def snake(name):
    if name in APART:
        return APART[name]
    if name[0].isupper():
        return re.sub(r"-(\w)", lambda m: m.group(1).upper(), name)
    name = re.sub(r"([a-z0-9])([A-Z])(?=[a-z]|$)", lambda m: m.group(1) + "_" + m.group(2).lower(), name)
    return name.replace("-", "_")


def function_folder(path):
    """Whether a file belongs to the proof of one function."""
    below = path.split("/proofs/", 1)
    return len(below) == 2 and "/" in below[1]


def uses(text):
    """The modules that a file takes names from: (module, names), a name as it is called in the file."""
    for m in re.finditer(r"(?m)^\s*(?:pub |ghost )*use ([^\s;{]+?)(?:\.\{([^}]*)\}|;|\s+as\s+([^\s;]+))?\s*;?\s*$", text):
        names = [n.strip().split(" as ")[-1].strip() for n in (m.group(2) or "").split(",") if n.strip()]
        yield m.group(1), names, m.group(3)


def own_module(module):
    return module.startswith("Rattle.") and module.split(".")[1] in OWN and not GENERATED.match(module)


OWN = {os.path.basename(d) for d in glob.glob(os.path.join(CRATES, "*"))}


def read(path):
    with open(path, encoding="utf-8") as f:
        return f.read()


def walk(text, rename):
    """The text with each token of code renamed; `rename` gets the token, and what stands before it."""
    out = []
    before = ""
    for m in TOKEN.finditer(text):
        t = m.group(0)
        if t.startswith("--"):
            t = comment(t)
        elif not t.startswith('"') and len(t) > 1:
            t = rename(t, before)
        out.append(t)
        before = m.group(0)
    return "".join(out)


def comment(text):
    """A comment: names in camel case are names of definitions, and in backquotes dashed ones are."""
    text = re.sub(r"`([^`\n]+)`", lambda m: "`" + (snake(m.group(1)) if m.group(1) in KNOWN else m.group(1)) + "`", text)
    return re.sub(r"(?<![\w`/])[a-z]+[A-Z]\w*", lambda m: snake(m.group(0)) if m.group(0) in KNOWN else m.group(0), text)


def lemma_names(path):
    """The names that a file of definitions or lemmas has of its own, that are spelled the old way."""
    text = read(path)
    theirs = set()
    for module, names, alias in uses(text):
        if not own_module(module):
            theirs |= set(names)
    found = set()

    def see(t, before):
        if before != "." and is_old(t) and t not in theirs:
            found.add(t)
        return t

    code = re.sub(r"(?ms)^\s*(?:pub )?use [^\n{]*(?:\{[^}]*\})?", lambda m: own_part(m.group(0)), text)
    walk(code, see)
    return found


def own_part(line):
    """A `use` line, or nothing where it takes names from elsewhere."""
    m = re.match(r"\s*(?:pub )?use ([^\s{]+?)(?:\.\{|\s|$)", line)
    return line if m and own_module(m.group(1).rstrip(".")) else ""


def fields(path):
    text = read(path)
    return set(re.findall(r"(?m)^\s+(?:pub )?([a-z]\w*) :", text))


LEMMA_FILES = [p for p in sorted(glob.glob(os.path.join(CRATES, "*", "*", "*.antt"))) if "/out/" not in p]
FUNCTION_FILES = [p for p in sorted(glob.glob(os.path.join(CRATES, "*", "proofs", "*", "**", "*.antt"), recursive=True))]
SOURCES = sorted(glob.glob(os.path.join(CRATES, "*", "src", "**", "*.rt"), recursive=True))
KNOWN = set()
for p in LEMMA_FILES:
    KNOWN |= lemma_names(p)
FIELDS = {f for p in LEMMA_FILES for f in fields(p) if CAMEL.match(f)}


def check_apart(path, names):
    """Two names of one file may not fall together."""
    seen = {}
    for n in names:
        s = snake(n) if n in KNOWN else n
        if seen.setdefault(s, n) != n:
            sys.exit(f"respell: {path}: {n} and {seen[s]} are both {s}")


def lemma_file(path):
    text = read(path)
    for place, names in APART_IN.items():
        if path.endswith(place):
            text = walk(text, lambda t, before: names.get(t, t))
    theirs = {n for module, names, alias in uses(text) if not own_module(module) for n in names}
    tokens = {t for t in re.findall(r"[^\s(){}\[\];,.`\"]+", re.sub(r"--.*", "", text)) if re.match(r"^[^\W\d]", t)}
    check_apart(path, sorted(tokens - theirs | {t for t in theirs}))

    def rename(t, before):
        if before == ".":
            return snake(t) if t in FIELDS or t in KNOWN and t not in theirs else t
        return snake(t) if t in KNOWN and t not in theirs else t

    return walk(text, rename)


def function_file(path):
    text = read(path)
    mine = {n for module, names, alias in uses(text) if own_module(module) for n in names}
    originals = set()
    for m in re.finditer(r"(?m)^\s*use (Rattle[^\s{]+?)\.\{([^}]*)\}", text):
        if own_module(m.group(1)):
            originals |= {n.strip().split(" as ")[0].strip() for n in m.group(2).split(",")}
    aliases = {alias for module, names, alias in uses(text) if alias and own_module(module)}

    def rename(t, before):
        if before == ".":
            return snake(t) if t in FIELDS or (t in KNOWN and CAMEL.match(t)) else t
        if t.endswith("-spec"):
            return snake(t)
        return snake(t) if t in KNOWN and t in (mine | originals) else t

    return walk(text, rename)


def source(path):
    """Camel case in src/ stands in clauses and comments alone."""
    text = read(path)
    parts = re.split(r'(//.*|b?"(?:[^"\\]|\\.)*")', text)
    for i, part in enumerate(parts):
        if i % 2 == 0:
            parts[i] = re.sub(r"(?<![\w'])[a-z]+[A-Z]\w*", lambda m: snake(m.group(0)) if m.group(0) in KNOWN else m.group(0), part)
        elif part.startswith("//"):
            parts[i] = comment(part)
    return "".join(parts)


def edit(path):
    out = []
    where = ""
    for line in read(path).split("\n"):
        if line.startswith("file: "):
            where = line[6:]
        if line.startswith(("old: ", "new: ")) and where.endswith(".antt"):
            line = line[:5] + walk(line[5:], lambda t, before: snake(t) if t in KNOWN else t)
        out.append(line)
    return "\n".join(out)


def main():
    done = 0
    for paths, turn in ((LEMMA_FILES, lemma_file), (FUNCTION_FILES, function_file), (SOURCES, source)):
        for p in paths:
            new = turn(p)
            done += new != read(p)
            with open(p, "w", encoding="utf-8") as f:
                f.write(new)
    for p in sorted(glob.glob(os.path.join(CRATES, "*", "must-fail", "*.edit"))):
        new = edit(p)
        done += new != read(p)
        with open(p, "w", encoding="utf-8") as f:
            f.write(new)
    print(f"respell: {len(KNOWN)} names, {done} files changed")
    for n in sorted(KNOWN):
        print(n, "->", snake(n), file=sys.stderr)


if __name__ == "__main__":
    main()
