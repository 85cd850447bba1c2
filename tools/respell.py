#!/usr/bin/env python3
"""Brings the repository's own definitions and lemmas to snake case, after port.py: `sameWord` and `same-over` become `same_word` and `same_over`.

usage: tools/respell.py [FOLDER]     rewrites crates/*/{specs,proofs}/**.antt and the clauses of crates/*/src/**.rt below FOLDER, and lays them out

A name is own where a file of specs/ or proofs/ declares it; what a file imports from another library keeps its spelling there. Where a
lemma would get the name of a definition, it gets `_lem` after it. Types and modules keep their capitals, and facts get one (FACTS).
"""
import collections
import os
import re
import subprocess
import sys

PART = r"[^\s(){}\[\],;\".@«»]"
DECLARED = re.compile(r"^\s*(?:\|\s*)?(?:(?:abbrev|unfoldable|pub)\s+)*(" + PART + r"+) :(?=\s|$)")
TOKEN = re.compile(r"--[^\n]*|\"(?:[^\"\\]|\\.)*\"|" + PART + "+")
SOURCE = re.compile(r"//[^\n]*|b?\"(?:[^\"\\]|\\.)*\"|b?'(?:[^'\\\n]|\\.)'|" + PART + "+")
QUOTED = re.compile(r"`([^`\n]+)`")
IMPORT = re.compile(r"^(?:ghost )?(?:pub )?use ([^\s.;]+)((?:\.[^\s.{};]+)*)\.\{([^}]*)\}", re.M)
ALIAS = re.compile(r"^(?:pub )?use \S+ as (\S+)$", re.M)
FACTS = {"amountAnswer": "AmountAnswer", "Found-by": "FoundBy", "Add-up": "AddUp", "Done-so": "DoneSo"}
# names that are bound, and not declared
BOUND = {"factCount": "fact_count", "numberCount": "number_count"}


def files(root, end):
    for folder, below, names in os.walk(os.path.join(root, "crates")):
        below[:] = sorted(it for it in below if it not in ("out", "must-fail"))
        for name in sorted(names):
            if name.endswith(end):
                yield os.path.join(folder, name)


def read(path):
    with open(path, encoding="utf-8") as it:
        return it.read()


def declared(text):
    text = re.sub(r"--[^\n]*", "", text)
    return [it[1] for it in map(DECLARED.match, text.split("\n")) if it]


def fields(text):
    """The names that a file declares as fields of a record."""
    found, depth = [], None
    for line in re.sub(r"--[^\n]*", "", text).split("\n"):
        indent = len(line) - len(line.lstrip())
        if re.match(r"\s*(?:(?:abbrev|unfoldable|pub)\s+)*record\s", line):
            depth = indent
        elif line.strip() and depth is not None and indent <= depth:
            depth = None
        if depth is not None and indent > depth and (it := DECLARED.match(line)):
            found.append(it[1])
    return found


def snake(name):
    if name in FACTS:
        return FACTS[name]
    if not re.match(r"[a-z]", name):
        return name
    name = re.sub(r"(?<=[a-z0-9'])([A-Z])", lambda it: "_" + it[1].lower(), name)
    return re.sub(r"(?<=[\w'])-(?=\w)", "_", name)


def table(root):
    where = collections.defaultdict(set)
    labels = set()
    for path in files(root, ".antt"):
        if os.path.basename(path) != "Proof.antt":
            text = read(path)
            labels.update(fields(text))
            for name in declared(text):
                where[name].add(path)
    # a field may have the name of a definition
    labels = {it for it in labels if not any(it in set(declared(read(p))) - set(fields(read(p))) for p in where[it])}
    spelled = collections.defaultdict(set)
    for name in where:
        spelled[snake(name)].add(name)
    specs = {name for name, paths in where.items() if any("/specs/" in it for it in paths)}
    out = {}
    for new, olds in spelled.items():
        # a definition keeps the plain name, and so does, where no definition has it, the lemma that is spelled so
        first = [it for it in olds if it in specs] or [it for it in olds if it == new] or sorted(olds)[:1]
        if len(first) > 1:
            sys.exit(f"two definitions would have the name {new}: {first}")
        for old in olds:
            out[old] = new if old == first[0] or old in labels else new + "_lem"
    return BOUND | FACTS | {old: new for old, new in out.items() if old != new}, set(where)


def imported(text, crates):
    """The names that a file takes from other libraries, and the aliases of such modules."""
    names = set()
    for library, path, those in IMPORT.findall(text):
        own = library == "Rattle" and path.split(".")[1] in crates
        if not own:
            names.update(re.split(r"[\s,]+", re.sub(r"\S+ as ", "", those)))
    return names


def turned(text, names, kept, token, walk):
    def word(it):
        found = it[0]
        if walk is not None and it.string[it.start() - 1 : it.start()] == "." and re.fullmatch(r"[a-z0-9_-]+", found):
            # a step of the code, unless a module stands before the dot
            before = re.search("(" + PART + r"+)\.$", it.string[: it.start()])
            if not before or before[1] not in walk:
                return found
        if found.startswith("--") or found.startswith("//"):
            return QUOTED.sub(lambda q: "`" + token.sub(word, q[1]) + "`", found)
        return names.get(found, found) if found not in kept else found

    return token.sub(word, text)


def clashes(path, before, names, kept, token):
    """New names that the file has already, of something else."""
    seen = {it[0] for it in token.finditer(re.sub(r"\.\S+", "", before)) if not re.match(r"--|//|b?[\"']", it[0])}
    new = {names[it] for it in seen if it in names and it not in kept}
    return sorted(new & (seen - set(names)))


def main(root):
    names, own = table(root)
    crates = set(os.listdir(os.path.join(root, "crates")))
    for end, token in ((".antt", TOKEN), (".rt", SOURCE)):
        for path in files(root, end):
            text = read(path)
            kept = imported(text, crates)
            if end == ".rt":
                # a name of the source keeps its spelling: a clause cites definitions alone, and no name of the source has a capital or a dash inside
                kept |= {it for it in names if re.fullmatch(r"[a-z0-9_]+", it)}
            if os.path.basename(path) == "Proof.antt":
                kept |= set(declared(text))
            for clash in clashes(path, text, names, kept, token):
                print(f"look: {path}: {clash}")
            new = turned(text, names, kept, token, set(ALIAS.findall(text)) if os.path.basename(path) == "Proof.antt" else None)
            if new != text:
                with open(path, "w", encoding="utf-8") as it:
                    it.write(new)
    for crate in sorted(crates):
        subprocess.run(["rt", "fmt"], cwd=os.path.join(root, "crates", crate), stdout=subprocess.DEVNULL, check=True)
    print(f"respell: {len(names)} of {len(own)} names")


if __name__ == "__main__":
    main(sys.argv[1] if len(sys.argv) > 1 else ".")
