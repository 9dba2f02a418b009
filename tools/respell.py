#!/usr/bin/env python3
"""Brings this repository's own definitions and lemmas to the spelling of today's Rattle: words in snake case, types in camel
case; a dash only between two names, each of which is a name for itself.

usage: tools/respell.py           respells every crate's .antt and .rt, once, after port.py; writes old and new to docs/spelling.tsv
       tools/respell.py --plan    prints what it would respell, and which names would fall together
"""

import collections
import os
import re
import sys

ROOT = os.path.join(os.path.dirname(os.path.dirname(os.path.abspath(__file__))), "crates")
TOKEN = re.compile(r"[^\s(){}\[\],;.⌜⌝·]+")
DEFINED = re.compile(
    r"^(\s*)((?:(?:abbrev|unfoldable|pub|data|record)\s+)*)([^\s(){}:;,.λ\[\]]+)((?:\s+[^:]*)?)\s:(?:\s|$)(.*)$"
)
# Words of the library beside which a lemma of this repository would have no name of its own.
LIBRARY = {"in_float"}
# Lemmas that fall together with a definition in their own crate, under a name that another crate has too.
IN_CRATE = {"svg_items": {"goes_on": "goes_on_lem"}, "ways": {"in_order": "in_order_lem"},
            "live_runs": {"goes_on": "held_while_open"}}


def texts(*endings):
    for folder, dirs, files in os.walk(ROOT):
        dirs[:] = sorted(d for d in dirs if d != "out")
        for name in sorted(files):
            if name.endswith(endings):
                yield os.path.join(folder, name)


def definitions():
    """Each name that a file of specs/ or proofs/ declares, with the files; goals of a Proof.antt are Rattle's own."""
    found = collections.defaultdict(set)
    for path in texts(".antt"):
        whole = os.path.basename(path) == "Proof.antt"
        for line in open(path, encoding="utf-8"):
            m = DEFINED.match(line.rstrip("\n"))
            if not m or line.lstrip().startswith("--"):
                continue
            kinds, name, parameters, rest = m.group(2), m.group(3), m.group(4), m.group(5)
            if parameters.strip() and not re.search(r"\b(data|record)\b", kinds):
                continue
            if whole and (re.match(r"(tie|goal)\.", rest.strip()) or name.endswith(("-spec", "_spec"))):
                continue
            found[name].add(path)
    return found


def snake(word):
    word = re.sub(r"([a-z0-9])([A-Z])", r"\1_\2", word)
    return word.lower()


def respelled(name, names):
    """The name in today's spelling; `names` are the names that a dash may stand between."""
    if name[0].isupper() or not re.match(r"[a-zα-ω+]", name) or "◌" in name:
        return name
    parts = name.split("-")
    if any(p == "" or not re.match(r"[\w'+₀-₉]+$", p) for p in parts):
        return snake(name) if re.match(r"[\w'₀-₉]+$", name) else name
    out = snake(parts[0])
    for before, after in zip(parts, parts[1:]):
        joined = before in names and after in names
        out += ("-" if joined else "_") + snake(after)
    return out


def standing(path):
    """The names that a file uses as its own or by an import: no path of a `use`, no field behind a dot, no Rust."""
    names = set()
    with open(path, encoding="utf-8") as f:
        text = f.read()
    if path.endswith(".rt"):
        clauses = re.findall(r"(?m)^\s*(?:ghost use|requires|ensures|ghost)\b.*$", text)
        names.update(re.findall(r"\b(\w+)\s*:(?!:)", text))
        text = "\n".join(clauses)
    for line in text.split("\n"):
        if line.lstrip().startswith("--"):
            continue
        m = re.match(r"\s*(?:pub |ghost )?use [^{]*\{(.*)\}", line)
        line = m.group(1) if m else re.sub(r"^\s*(?:pub |ghost )?use .*?( as |$)", "", line)
        names.update(t.group(0) for t in TOKEN.finditer(line) if t.start() == 0 or line[t.start() - 1] != ".")
    return names


def plan():
    """Old names with their new ones. Of two that would fall together in a file the lemma ends in `_lem`."""
    found = definitions()
    spec = {n for n, where in found.items() if any("/specs/" in p for p in where)}
    new = {n: respelled(n, spec) for n in sorted(found) if respelled(n, spec) != n}
    onto = collections.defaultdict(set)
    for old, name in new.items():
        onto[name] |= {old, name}
    lemmas = set()
    for path in texts(".antt", ".rt"):
        names = standing(path)
        for name, olds in onto.items():
            here = olds & names
            if len(here) > 1:
                lemmas |= {o for o in here if o in found and o not in spec and o != "goes_on"}
                if len(here - lemmas - set(IN_CRATE.get(os.path.relpath(path, ROOT).split(os.sep)[0], {}))) > 1:
                    print("fall together:", os.path.relpath(path, ROOT), *sorted(here), file=sys.stderr)
    for old, name in list(new.items()):
        if name in LIBRARY:
            lemmas.add(old)
    new.update({old: new.get(old, old) + "_lem" for old in lemmas})
    return new, found


def turn(path, new):
    """Respells a file: Rust's strings keep their words, and so does a comment's prose, but for names in backquotes."""
    new = new | IN_CRATE.get(os.path.relpath(path, ROOT).split(os.sep)[0], {})
    swap = lambda m: new.get(m.group(0), m.group(0))
    quoted = lambda m: TOKEN.sub(swap, m.group(0))
    with open(path, encoding="utf-8") as f:
        text = f.read()
    lines = []
    for line in text.split("\n"):
        m = re.match(r"(.*?)((?:^|(?<=\s))(?://|--)(?:\s.*)?$)", line)
        code, comment = m.groups() if m else (line, "")
        if path.endswith(".rt"):
            parts = re.split(r'("(?:[^"\\]|\\.)*")', code)
            code = "".join(p if i % 2 else TOKEN.sub(swap, p) for i, p in enumerate(parts))
        else:
            code = TOKEN.sub(swap, code)
        lines.append(code + re.sub(r"`[^`]*`", quoted, comment))
    turned = "\n".join(lines)
    if turned != text:
        with open(path, "w", encoding="utf-8") as f:
            f.write(turned)
        return 1
    return 0


def main(argv):
    new, found = plan()
    if argv == ["--plan"]:
        for old, name in sorted(new.items()):
            if name.endswith("_lem"):
                print(old, name)
        print(len(new), "names")
        return 0
    n = sum(turn(path, new) for path in texts(".antt", ".rt"))
    with open(os.path.join(os.path.dirname(ROOT), "docs", "spelling.tsv"), "w", encoding="utf-8") as f:
        f.writelines(f"{old}\t{name}\n" for old, name in sorted(new.items()))
    print(n, "files,", len(new), "names")
    return 0


if __name__ == "__main__":
    raise SystemExit(main(sys.argv[1:]))
