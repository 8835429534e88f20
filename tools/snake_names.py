#!/usr/bin/env python3
"""Brings the repository's own definitions and lemmas to snake case, once, after the toolchain's port script.

usage: tools/snake_names.py [--list]     at the top of the repository

A word that is no type is in snake case. A dash stays where it joins the names of two definitions (`length-put`), and becomes `_` elsewhere. A lemma
whose name would fall together with a definition's, a field's or a function's parameter ends in `_lem`. Names of src/, strings and comments keep their
spelling, but for names in backquotes. It writes the old and new names to tools/names.tsv. --list prints them and changes nothing.
"""
import collections
import os
import re
import sys

NAME = r"[^\s(){}\[\].,;:«»`\"|/\\]+"
SIG = re.compile(r"^(\s*)((?:(?:pub|unfoldable|abbrev|pattern)\s+)*)(" + NAME + r"(?:\s+" + NAME + r")*)\s+:\s")
USE = re.compile(r"^\s*(?:pub\s+|unfoldable\s+|abbrev\s+)*use\s+([\w.+'·-]+?)\.\{(.*)\}")
SHUT = {"length", "rows", "get", "put", "change", "set", "take", "drop", "map", "sum", "get_or", "append", "body", "links", "seen", "linked", "within"}


def antt_files():
    for top, dirs, files in os.walk("crates"):
        dirs[:] = sorted(d for d in dirs if d != "out")
        for f in sorted(files):
            if f.endswith(".antt"):
                yield os.path.join(top, f)


def rt_files():
    for top, dirs, files in os.walk("crates"):
        dirs[:] = sorted(d for d in dirs if d != "out")
        for f in sorted(files):
            if f.endswith(".rt"):
                yield os.path.join(top, f)


def snake(part):
    part = re.sub(r"(?<=[a-z0-9])([A-Z])", lambda m: "_" + m.group(1).lower(), part)
    if re.fullmatch(r"[A-Z]", part):
        return part.lower()
    return part[0].lower() + part[1:] if re.match(r"[A-Z][A-Z]", part) else part


def collect():
    own, defs, fields, std, bound = {}, set(), set(), set(), set()
    for p in antt_files():
        walk = os.path.basename(p) == "Proof.antt"
        record = None
        for line in open(p, encoding="utf-8"):
            if line.lstrip().startswith("--"):
                continue
            u = USE.match(line)
            if u and not u.group(1).startswith("Rattle." ) or u and u.group(1).startswith("Rattle.std"):
                for w in u.group(2).split(","):
                    std.add(w.strip().split(" as ")[0].strip())
                continue
            if re.match(r"^\s*(pub |unfoldable |abbrev )*(record|data)\b", line):
                record = len(line) - len(line.lstrip())
            elif record is not None and line.strip() and len(line) - len(line.lstrip()) <= record:
                record = None
            bound.update(w for dot, w in re.findall(r"(\.?)(" + NAME + ")", line) if not dot)
            m = SIG.match(line)
            if m and not walk:
                for w in m.group(3).split():
                    if w in ("let", "in", "λ", "module", "where", "_", "use", "mod"):
                        continue
                    if record is not None:
                        fields.add(w)
                    own.setdefault(w, p)
                    if "unfoldable" in m.group(2) or "abbrev" in m.group(2):
                        defs.add(w)
                    if w[0].islower() and re.search("[A-Z]", w) and "-" not in w:
                        defs.add(w)
    params, places = set(), set()
    for p in rt_files():
        t = open(p, encoding="utf-8").read()
        for args in re.findall(r"\bfn \w+\s*\(([^)]*)\)", t):
            params.update(re.findall(r"(\w+)\s*:", args))
        for body in re.findall(r"\bstruct \w+\s*\{([^}]*)\}", t):
            places.update(re.findall(r"(\w+)\s*:", body))
    return own, defs, fields, std, bound, params, places


def turned(own, defs, fields, std, bound, params, places):
    snaked = {snake(d) for d in defs if "-" not in d} | SHUT
    new = {}
    for w in own:
        if re.match(r"[A-Z][a-z]", w) or len(w) == 1 or w in std:
            continue
        parts = [snake(x) for x in w.split("-")]
        if len(parts) == 1 or "" in parts:
            to = parts[0] if len(parts) == 1 else w
        else:
            to = "_".join(parts)
            for k in range(1, len(parts)):
                left, right = "_".join(parts[:k]), "_".join(parts[k:])
                first = [r for r in ("_".join(parts[k:j]) for j in range(len(parts), k, -1)) if r in snaked]
                if first and left in snaked and (left in SHUT or "_" in left):
                    to = left + "-" + right
                    break
        if to != w:
            new[w] = to
    taken = collections.Counter()
    keep = {w for w in own if w not in new}
    for w in sorted(new, key=lambda w: (w not in defs, w not in fields, w)):
        to = new[w]
        clash = to in keep or taken[to] or to in std
        if w not in fields and w not in defs:
            clash = clash or to in bound or to in params or to in places
        elif w in defs and w not in fields:
            clash = clash or to in params or to in places or to in bound
        if clash:
            to = to + "_lem" if w not in defs else to + "_of"
            while to in keep or taken[to] or to in std or to in own:
                to += "_2"
        taken[to] += 1
        new[w] = to
    return new


def turn_text(text, new, fields, rt=False):
    token = re.compile(NAME)

    def word(m):
        w = m.group(0)
        # behind a dot stands a field, or a step of a proof that has a function's name
        if m.start() and m.string[m.start() - 1] == "." and "-" in w and w not in fields:
            return w
        return new.get(w, w)

    def words(s):
        return token.sub(word, s)

    out = []
    for line in text.split("\n"):
        mark = "//" if rt else "--"
        at = None
        if rt:
            for m in re.finditer(r'"(?:[^"\\]|\\.)*"|//', line):
                if m.group(0) == "//":
                    at = m.start()
                    break
        else:
            m = re.search(r"(?:^|\s)--(?=\s|-|$)", line)
            at = m.start() if m else None
        code, note = (line, "") if at is None else (line[:at], line[at:])
        if rt:
            pieces = re.split(r'("(?:[^"\\]|\\.)*")', code)
            code = "".join(x if i % 2 else words(x) for i, x in enumerate(pieces))
        else:
            code = words(code)
        note = re.sub(r"`([^`]*)`", lambda m: "`" + words(m.group(1)) + "`", note)
        out.append(code + note)
    return "\n".join(out)


def main(argv):
    found = collect()
    new, fields = turned(*found), found[2]
    if "--list" in argv:
        for w in sorted(new):
            print(w, new[w])
        return
    for p in list(antt_files()) + list(rt_files()):
        t = open(p, encoding="utf-8").read()
        n = turn_text(t, new, fields, p.endswith(".rt"))
        if n != t:
            open(p, "w", encoding="utf-8").write(n)
    with open("tools/names.tsv", "w", encoding="utf-8") as f:
        for w in sorted(new):
            f.write(w + "\t" + new[w] + "\n")


if __name__ == "__main__":
    main(sys.argv[1:])
