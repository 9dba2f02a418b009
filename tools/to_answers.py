#!/usr/bin/env python3
"""Turns the Proof.antt of an older Rattle, a term for each goal of `Tie`, to today's Invariants.antt and Answers.antt.

usage: tools/to_answers.py CRATE NAMES    CRATE is a crate's name; NAMES the names.json that `rt check --generated DIR --old-names`
                                          writes in that crate's folder. Prints what it could not turn.
"""

import json
import os
import re
import sys

ROOT = os.path.join(os.path.dirname(os.path.dirname(os.path.abspath(__file__))), "crates")
WORD = r"[^\s(){}.;,@\"«»\[\]\\]+"
OPERATION = re.compile(r"^(overflow|nonzero|float|int|slice|offset|array|invariant|shape)[-_]")
plain = lambda it: it.replace("_", "-")
alike = lambda it: re.sub("[-_]", "", re.sub("_lem$", "", it)).lower()
said = []


def say(where, text):
    said.append(f"{where}: {text}")


def blocks(text):
    """The top-level declarations of a file, each with the comment above it."""
    out, now = [], []
    for line in text.split("\n"):
        if line.strip() == "":
            if now:
                out.append(now)
            now = []
        else:
            now.append(line)
    if now:
        out.append(now)
    return out


def joined(lines):
    """A declaration with its signature on one line, where it is a goal's."""
    k = next((i for i, l in enumerate(lines) if not l.startswith("--")), None)
    if k is None or not re.match(r"(abbrev |pub )*\S+ :", lines[k]):
        return lines
    j = k + 1
    while j < len(lines) and lines[j].startswith(" "):
        j += 1
    whole = " ".join(l.strip() for l in lines[k:j])
    return lines[:k] + [whole] + lines[j:] if ".Need-" in whole else lines


class Function:
    """What Rattle says of one function's goals and steps, by their old names."""

    def __init__(self, names):
        self.names = names
        self.needs = names["needs"]
        self.places = names["places"]
        self.parent = {p[0]: p[1] for p in self.places}
        self.step = {p[0]: p[2] for p in self.places}
        self.callee = {p[0]: p[3] for p in self.places}
        self.index = {p[0]: i for i, p in enumerate(self.places)}
        self.helpers = {}
        self.imports = set()
        self.recursive = False
        self.taken = set()
        self.known = set()

    def named(self, place):
        return self.names["places_by_name"][self.index[place]]

    def place_of(self, old):
        for p in self.places:
            if alike(p[0]) == alike(old):
                return p[0]
        return None

    def goal(self, old):
        """The old name's place among the goals, or None; 'settled' for one that Rattle proves."""
        forms = [old]
        m = re.match(r"^(overflow|nonzero)-(.*)$", old)
        if m:
            forms.append(m.group(2))
        for form in forms:
            for i, (o, n) in enumerate(self.needs):
                if o == form or plain(o) == plain(form):
                    return i
        for form in forms:
            for i, (o, n) in enumerate(self.needs):
                if alike(o) == alike(form):
                    return i
        m = re.match(r"^(?:overflow-|nonzero-)?(add|sub|mul|div|rem|cast|shl|shr)-t\d+(-\d+)?$", old)
        if m:
            for i, (o, n) in enumerate(self.needs):
                if i not in self.taken and re.match(rf"(overflow|nonzero)_{m.group(1)}-", n) and o not in self.known:
                    return i
        for form in forms:
            if any(alike(form) == alike(s) for s in self.names["settled"]):
                return "settled"
        return None

    def chain(self, place):
        out = []
        while place is not None:
            out.append(place)
            place = self.parent.get(place)
        return out


def split_top(text, sep=","):
    out, depth, now = [], 0, ""
    for ch in text:
        if ch in "([{":
            depth += 1
        elif ch in ")]}":
            depth -= 1
        if ch == sep and depth == 0:
            out.append(now)
            now = ""
        else:
            now += ch
    out.append(now)
    return out


def by_position(rest, names):
    """`.1.1.0` of a tuple of these names as a name, with what is behind it; None where it does not fit."""
    m = re.match(r"((?:\.1)*)(\.0)?(?=[^\w]|$)", rest)
    n = len(m.group(1)) // 2
    if m.group(2) is None:
        return None
    if n < len(names):
        return names[n], rest[m.end() :]
    return None


def inlined(body, alias, fn):
    """A `let` of a part of a step by position, put in where it is used: an arm's fields, a part of what a call keeps."""
    paths = "|".join(re.escape(a) for a in sorted(alias, key=len, reverse=True))
    LET = rf"\blet ({WORD}) = ((?:{paths})(?:\.before)*\.{WORD}(?:\.given\.0|\.(?:auto|new|kept)(?:\.1)+)) in\s?"
    m = re.search(LET, body)
    while m:
        name, path = m.groups()
        rest = body[m.end() :]
        rest = re.sub(rf"(?<![^\s(,]){re.escape(name)}((?:\.[01])+)(?![\w-])", lambda k: path + k.group(1), rest)
        body = body[: m.start()] + rest
        m = re.search(LET, body)
    if fn.recursive:
        for m in re.finditer(rf"\blet ({WORD}) = (?:{paths})(?:\.before)*\.(?:requires|pre) in", body):
            name = m.group(1)
            body = body[: m.end()] + re.sub(rf"(?<![^\s(,]){re.escape(name)}\.1(?=\.|[\s),])", name, body[m.end() :])
    return body


def turn_paths(body, var, fn, place, where, goal=None):
    """The steps that a goal's variable names, by their new names."""
    alias = {var: place}
    more = True
    while more:
        more = False
        for m in re.finditer(rf"\blet ({WORD}) = ({WORD})((?:\.before)+) in\b", body):
            if m.group(2) in alias:
                k = m.group(3).count(".before")
                chain = fn.chain(alias[m.group(2)])
                alias[m.group(1)] = chain[min(k, len(chain) - 1)]
                body = body[: m.start()] + f"let {m.group(1)} = {var} in" + body[m.end() :]
                more = True
                break

    body = inlined(body, alias, fn)

    def swap(m):
        name, befores, field, rest = m.group(1), m.group(2), m.group(3), m.group(4)
        at = alias[name]
        chain = fn.chain(at)
        if field in ("well-formed", "well_formed"):
            return f"{name}.well_formed{rest}"
        if field == "args":
            m2 = re.match(rf"\.({WORD})", rest)
            if m2:
                return f"{name}.args.{m2.group(1).replace('-', '_')}{rest[m2.end():]}"
            return f"{name}.args{rest}"
        if field in ("requires", "pre"):
            if fn.recursive and re.match(r"\.1(?=\.|$)", rest):
                rest = rest[2:]
            pre = fn.names["pre"]
            if pre:
                got = by_position(rest, pre["fields"]) or None
                m3 = re.match(r"((?:\.1)*)(\.0)?", rest)
                m4 = re.match(r"\.(\d+)", rest)
                if m4 and int(m4.group(1)) < len(pre["fields"]):
                    return f"{name}.requires.{pre['fields'][int(m4.group(1))]}{rest[m4.end():]}"
            return f"{name}.requires{rest}"
        k = befores.count(".before")
        order = chain[k : k + 1] + chain
        for p in chain:
            arm = fn.names["arms"][fn.index[p]]
            for new, step, path in arm[2] if arm else []:
                m2 = re.match("".join(r"\." + re.escape(o) for o in path) + r"(?=\.|$)(.*)$", rest) if path else None
                if m2 and alike(step) == alike(field):
                    return f"{name}.{arm[0]}.{new}{m2.group(1)}"
        for p in order:
            old, new = fn.step[p]
            if old and alike(old) == alike(field):
                rest = {".taken": ".true", ".left": ".false"}.get(rest, rest)
                rest = re.sub(r"^\.kept(?=\.|$)", ".auto", rest)
                if new.startswith("if-not-") and rest in (".true", ".false"):
                    fn.imports |= {"ap", "not"}
                    return f"(ap not {name}.{new}{rest})"
                return f"{name}.{new}{turn_rest(rest, fn, p, where)}"
        say(where, f"no step {name}{befores}.{field}{rest} from {at}")
        return f"{name}.{field}{rest}"

    paths = "|".join(re.escape(a) for a in sorted(alias, key=len, reverse=True))
    body = re.sub(rf"(?<![^\s(,])({paths})(\.before)+(?![.\w])", r"\1", body)
    for helper, (over, _) in fn.helpers.items():
        if goal and over != place:
            body = re.sub(
                rf"(?<![^\s(,]){re.escape(helper)} (t )?({paths})(?![.\w])",
                lambda m: f"{helper} {m.group(1) or ''}(goal.at.{goal} {m.group(1) or ''}{var}).{fn.named(over)}",
                body,
            )
    body = re.sub(rf"(?<![^\s(,])({paths})((?:\.before)*)\.({WORD})((?:\.{WORD})*)", swap, body)
    return turn_aliases(body, fn, paths)


def turn_aliases(body, fn, paths):
    """The fields of what a `let` calls by one name: the arguments, a loop, a callee's clauses."""
    of_loop = {n: set(v) for (_, n), v in fn.names["loops"]}
    clauses = {fn.step[p[0]][1]: c["fields"] for p, c in zip(fn.places, fn.names["clauses"]) if c}
    callees = {fn.step[p[0]][1]: fn.names["params"].get(p[3]) for p in fn.places if p[3]}
    for m in list(re.finditer(rf"\blet ({WORD}) = (?:{paths})\.({WORD})\.(?:new|auto) in\b", body)):
        name, step = m.groups()
        if callees.get(step):
            def swap(k):
                got = by_position(k.group(1), callees[step])
                return f"{name}.{got[0]}{got[1]}" if got else k.group(0)
            body = re.sub(rf"(?<![^\s(,]){re.escape(name)}((?:\.[01])+)(?![\w-])", swap, body)
    for m in list(re.finditer(rf"\blet ({WORD}) = (?:{paths})\.({WORD}) in\b", body)):
        name, step = m.groups()
        if callees.get(step):
            def swap(k):
                got = by_position(k.group(2), callees[step])
                return f"{name}.{k.group(1)}.{got[0]}{got[1]}" if got else k.group(0)
            body = re.sub(rf"(?<![^\s(,]){re.escape(name)}\.(new|auto)((?:\.[01])+)(?![\w-])", swap, body)
        if step in clauses:
            swap = lambda k: f"{name}.ensures.{clauses[step][int(k.group(1))]}"
            body = re.sub(rf"(?<![^\s(,]){re.escape(name)}\.ensures\.(\d+)(?![\w-])", swap, body)
    for m in list(re.finditer(rf"\blet ({WORD}) = (?:{paths})\.({WORD})(\.ensures)? in\b", body)):
        name, step, ensures = m.groups()
        if step == "args" or step in of_loop:
            keep = of_loop.get(step, set())
            swap = lambda k: f"{name}.{k.group(1) if k.group(1) in keep else k.group(1).replace('-', '_')}"
            body = re.sub(rf"(?<![^\s(,]){re.escape(name)}\.({WORD})", swap, body)
        elif ensures and step in clauses:
            fields = clauses[step]
            swap = lambda k: f"{name}.{fields[int(k.group(1))]}" if int(k.group(1)) < len(fields) else k.group(0)
            body = re.sub(rf"(?<![^\s(,]){re.escape(name)}\.(\d+)(?![\w-])", swap, body)
    return body


def turn_rest(rest, fn, place, where):
    """What a step's fields are called, by its callee's parameters and clauses."""
    for (o, n), variables in fn.names["loops"]:
        if fn.step[place][1] == n:
            m = re.match(rf"\.({WORD})(.*)$", rest)
            if m and m.group(1) not in variables and m.group(1).replace("-", "_") in variables:
                return f".{m.group(1).replace('-', '_')}{m.group(2)}"
    callee = fn.callee[place]
    params = fn.names["params"].get(callee) if callee else None
    m = re.match(r"\.(auto|new)((?:\.[01])*)(?=\.|$)(.*)$", rest)
    if m and m.group(2) and params:
        got = by_position(m.group(2), params)
        if got:
            return f".{m.group(1)}.{got[0]}{got[1]}{m.group(3)}"
    clauses = fn.names["clauses"][fn.index[place]]
    if clauses:
        fields = clauses["fields"]
        m = re.match(r"\.ensures\.(\d+)(.*)$", rest)
        if m and int(m.group(1)) < len(fields):
            return f".ensures.{fields[int(m.group(1))]}{m.group(2)}"
    return rest


def turn_loop(lines, fn, where):
    """An invariant or a measure over the record of the loop's variables."""
    m = re.match(r"(?:abbrev |pub )*(\S+) : tie\.(invariant|decreases)-(\S+)$", lines[0])
    kind, old = m.group(2), m.group(3)
    for i, ((o, n), variables) in enumerate(fn.names["loops"]):
        if alike(o) == alike(old):
            break
    else:
        say(where, f"no loop {old}")
        return None, lines
    changed = fn.names["changed"][i]
    text = "\n".join(lines[1:])
    m = re.match(r"(\S+) (.*?) =(?=\s)(.*)$", text, re.S)
    given, body = m.group(2).split(), m.group(3)
    now = [v for v, c in zip(variables, changed) if c]
    if len(given) != len(variables) + len(now):
        say(where, f"loop {old} takes {len(given)} for {variables} of which change {now}")
    new = {}
    for g, v, c in zip(given, variables, changed):
        new[g] = f"l.initial.{v}" if c else f"l.{v}"
    for g, v in zip(given[len(variables) :], now):
        new[g] = f"l.{v}"
    new.pop("_", None)
    bound = set(re.findall(rf"λ \(?({WORD})", body)) & set(new)
    bound |= {b for group in re.findall(r"\(([^():]+) : ", body) for b in group.split()} & set(new)
    if bound:
        say(where, f"loop {old} binds {bound} again")
    body = re.sub(WORD, lambda m: new.get(m.group(0), m.group(0)) if m.start() == 0 or body[m.start() - 1] != "." else m.group(0), body)
    body = re.sub(r"(l\.initial\.\S+?|l\.\S+?)'(?=\s|$)", r"\1'", body)
    name = f"{kind}-{n}"
    return (f"abbrev pub {name} : goal.{name}\n{name} l ={body}", (m.group(1), name)), None


def tuple_of(text, n):
    """The n parts of a tuple that may be nested to the right."""
    parts = [p.strip() for p in split_top(text) if p.strip()]
    while len(parts) < n and parts[-1].startswith("(") and parts[-1].endswith(")"):
        parts[-1:] = [p.strip() for p in split_top(parts[-1][1:-1])]
    return parts


def as_record(body, fields):
    """A tuple at the end of a body as a record of these fields."""
    head, tail = "", body
    k = 0
    depth = 0
    for m in re.finditer(r"[()\[\]{}]|(?<!\S)in(?!\S)|↦", body):
        if m.group(0) in "([{":
            depth += 1
        elif m.group(0) in ")]}":
            depth -= 1
        elif m.group(0) == "in" and depth == 0:
            k = m.end()
    head, tail = body[:k], body[k:]
    t = tail.strip()
    if t.startswith("(") and t.endswith(")"):
        parts = tuple_of(t[1:-1], len(fields))
        if len(parts) == len(fields):
            inner = "; ".join(f"{f} = {p.strip()}" for f, p in zip(fields, parts))
            return f"{head} record {{ {inner} }}"
    if re.match(r"(rw|simp)\b", t) and t.endswith(")"):
        depth = 0
        for i in range(len(t) - 1, -1, -1):
            depth += (t[i] == ")") - (t[i] == "(")
            if depth == 0:
                break
        parts = tuple_of(t[i + 1 : -1], len(fields))
        if len(parts) == len(fields):
            inner = "; ".join(f"{f} = {p.strip()}" for f, p in zip(fields, parts))
            return f"{head} {t[:i]}record {{ {inner} }}"
    return f"{head} record {{ " + "; ".join(f"{f} = ({t}).{i}" for i, f in enumerate(fields)) + " }"


GOAL = re.compile(r"(?:pub )?(\S+) : (?:\(t : ℕ\) → )?\S+\.Need-(\S+)(.*)$")


def turn_goal(lines, fn, where):
    m = GOAL.match(lines[0])
    own, old = m.group(1), m.group(2)
    i = fn.goal(old)
    if i == "settled":
        return None
    if i is None:
        say(where, f"no goal {old}")
        return None
    fn.taken.add(i)
    new = fn.needs[i][1]
    out = [f"pub {new} : goal.{new}"]
    rest = lines[1:]
    while rest and rest[0].startswith("unfolding "):
        out.append(rest[0])
        rest = rest[1:]
    text = "\n".join(rest)
    m = re.match(rf"{re.escape(own)} ((?:\S+ )*?)=(?=\s)(.*)$", text, re.S)
    if not m:
        say(where, f"no clause of {own}")
        return None
    given, body = m.group(1).split(), m.group(2)
    recursion = given[:1] == ["t"]
    given = given[1:] if recursion else given
    var = given[0] if given else "c"
    place = fn.names["asked_at"][i][0]
    if body.strip() == "search rules" and len(out) == 1:
        return None
    body = turn_paths(body, var, fn, place, where, new)
    fields = fn.names["asked"].get(fn.needs[i][0])
    if fields and not re.match(r"\s*(search|grind|omega)\b", body):
        body = as_record(body, fields)
    more = "".join(" " + g for g in given[1:] if g != "κs")
    out.append(f"{new} {'t ' if recursion else ''}{var}{more} ={body}")
    return "\n".join(out)


def turn_helper(text, fn, where):
    """A lemma of the file's own, which may speak of what one step knows."""
    m = re.search(rf"(?m)^(?:pub |abbrev )*({WORD}) : .*?\(({WORD}) : ({WORD}\.({WORD}))(?: \(claims t\) \(\S+ t\) \S+\.Post)?\)", text)
    if not m or not re.match(r"tie$|.*-lts$", m.group(3).split(".")[0]):
        return text
    name, var, old = m.group(1), m.group(2), m.group(4)
    place = fn.place_of(old)
    if place is None:
        say(where, f"helper over {old}")
        return text
    fn.helpers[name] = (place, var)
    text = text.replace(f"tie.{old}", fn.named(place))
    text = re.sub(rf"\S+-lts\.{re.escape(old)} \(claims t\) \(\S+ t\) \S+\.Post", f"{fn.named(place)} t", text)
    return turn_paths(text, var, fn, place, where)


def parameters(crate, name):
    """The names of a function's parameters, from its source."""
    for folder, dirs, files in os.walk(os.path.join(ROOT, crate, "src")):
        for f in files:
            with open(os.path.join(folder, f), encoding="utf-8") as it:
                m = re.search(rf"\bfn {name}\((.*?)\)\s*(?:->|\n\s*(?:requires|ensures)|{{)", it.read(), re.S)
            if m:
                return [p.split(":")[0].replace("mut ", "").replace("&", "").strip() for p in split_top(m.group(1)) if p.strip()]
    return []


def turn_measure(lines, crate, name, where):
    """A recursion's measure, by its parameters' names."""
    m = re.match(r"\S+ κs a =(.*)$", "\n".join(lines[1:]), re.S)
    names = parameters(crate, name)

    def swap(k):
        n = k.group(1).count(".1")
        return f"l.{names[n]}" if n < len(names) else k.group(0)

    body = re.sub(r"(?<![^\s(])a((?:\.1)*)\.0(?![\w-])", swap, m.group(1))
    return f"abbrev pub decreases-{name} : goal.decreases-{name}\ndecreases-{name} l ={body}"


def turn_file(path, crate, names):
    module = os.path.relpath(os.path.dirname(path), os.path.join(ROOT, crate, "proofs")).replace(os.sep, ".")
    key = f"Rattle-{crate}-proofs.{module}.Lts"
    where = f"{crate}/{module}"
    with open(path, encoding="utf-8") as f:
        text = f.read()
    cycle = re.search(r"(?m)^use \S+\.(Lts-(\w+)) as (\S+)$", text)
    if cycle:
        key = f"Rattle-{crate}-proofs.{module}.{cycle.group(1)}"
    elif ".Tie as tie" not in text:
        say(where, "not by Tie")
        return
    if key not in names:
        say(where, "no names")
        return
    fn = Function(names[key])
    fn.recursive = bool(cycle)
    for lines in blocks(text):
        if ("tie." in lines[0] or "-lts." in lines[0]) and not re.search(r"\.(Need|invariant|decreases)-", lines[0]) and not re.search(r"[-_]spec : ", lines[0]):
            turn_helper("\n".join(lines), fn, where)
    head, uses, helpers, loops, goals = [], [], [], [], []
    for m in re.finditer(r"\.Need-(\S+)", text):
        if not re.search(r"-t\d+(-\d+)?$", m.group(1)):
            fn.known |= {m.group(1), re.sub(r"^(overflow|nonzero)-", "", m.group(1))}
    for lines in blocks(text):
        lines = joined(lines)
        above = []
        while lines and lines[0].startswith("--"):
            (above if uses else head).append(lines[0])
            lines = lines[1:]
        while lines and re.match(r"(pub )?use ", lines[0]):
            uses.append(lines[0])
            lines = lines[1:]
        if not lines:
            continue
        if re.match(r"(abbrev |pub )*\S+ : tie\.(invariant|decreases)-", lines[0]):
            got, _ = turn_loop(lines, fn, where)
            if got:
                loops.append(got)
        elif cycle and lines[0].startswith("abbrev μ_"):
            loops.append((turn_measure(lines, crate, cycle.group(2), where), None))
        elif cycle and re.match(r"abbrev (claims|\S+[-_]at|\S+[-_]below) : ℕ → ", lines[0]):
            continue
        elif GOAL.match(lines[0]):
            got = turn_goal(lines, fn, where)
            if got:
                goals.append("\n".join(above + [got]))
        elif re.match(r"(pub )?\+?\S+[-_]spec : ", lines[0]):
            continue
        else:
            helpers.append("\n".join(above + [turn_helper("\n".join(lines), fn, where)]))
    uses = [u for u in uses if not re.search(r"\.(Tie as tie|Statement\.\{statement\})$|\.(Reads|Kinds|Lts-\w+) as |\.\{statement\}$|\.Tie\.\{close\}|^use borrow\.Fn\.(Kinds|PlainCycle)\.", u)]
    base = f"Rattle.{crate}.proofs.{module}"
    whole = "\n\n".join(helpers)
    if "tie." in whole:
        say(where, "a helper speaks of tie")
    imported = {n.strip() for u in uses for m in [re.search(r"\{(.*)\}", u)] if m for n in m.group(1).split(",")}
    if fn.imports - imported:
        uses = [f"use Rattle.std.proofs.Common.{{{', '.join(sorted(fn.imports - imported))}}}"] + uses
    places = sorted({fn.named(over) for over, _ in fn.helpers.values()})
    named = [f"use {base}.Goals.{{{', '.join(places)}}}"] if places else []
    folder = os.path.dirname(path)
    in_loops = ""
    if loops:
        text_of = "\n\n".join(t for (t, _) in loops)
        need = [h for h in helpers if any(re.search(rf"(?<![^\s(]){re.escape(n)}(?![^\s).,])", text_of) for n in re.findall(rf"(?m)^(?:abbrev |pub |unfoldable )*({WORD}) : ", h))]
        if need:
            say(where, "an invariant rests on a helper")
        with open(os.path.join(folder, "Invariants.antt"), "w", encoding="utf-8") as f:
            f.write("\n".join(head[:1] + uses + [f"use {base}.Given as goal"]) + "\n\n")
            if need:
                f.write("\n\n".join(need) + "\n\n")
            f.write(text_of + "\n")
    if goals:
        with open(os.path.join(folder, "Answers.antt"), "w", encoding="utf-8") as f:
            f.write("\n".join(head + uses + [f"use {base}.Goals as goal"] + named) + "\n\n")
            if whole:
                f.write(whole + "\n\n")
            f.write("\n\n".join(goals) + "\n")
    os.remove(path)


def main(argv):
    crate, listed = argv[0], argv[1]
    with open(listed, encoding="utf-8") as f:
        names = json.load(f)
    for folder, dirs, files in sorted(os.walk(os.path.join(ROOT, crate, "proofs"))):
        if "Proof.antt" in files and (len(argv) < 3 or argv[2] in folder):
            turn_file(os.path.join(folder, "Proof.antt"), crate, names)
    print("\n".join(said))
    return 0


if __name__ == "__main__":
    raise SystemExit(main(sys.argv[1:]))
