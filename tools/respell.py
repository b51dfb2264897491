#!/usr/bin/env python3
"""Brings the repository's own definitions, laws and fields to snake case, after port.py: usage: respell.py [FOLDER]

`startAnswer` and `start-tests` become `start_answer` and `start_tests`, where they are declared in specs/ or proofs/ and wherever they are cited: in .antt files,
in clauses and ghost items of .rt files, and in must-fail edits. An edit's text is turned to the new spelling besides (operators, projections). Types, modules,
statements and constructors keep their capitals; functions of src/ keep their names. It prints names that fall together."""
import os
import re
import sys

ROOT = os.path.abspath(sys.argv[1] if len(sys.argv) > 1 else ".")
CRATES = os.path.join(ROOT, "crates")
W = r"[^\s(){}.;,@\"«»\[\]\\]+"
TOKEN = re.compile(r"--[^\n]*|\"(?:[^\"\\]|\\.)*\"|" + W)
DECL = re.compile(r"^(?:unfoldable |abbrev |pub |ghost |module _ )*((?:" + W + r" )+):(?: |$)")
OWNUSE = re.compile(r"^\s*(?:ghost )?(?:pub )?use ([^\s{;]+)")
# Definitions that would have the name of a field of the record that they fill.
OTHER = {"etAtRequest": "et_raised_at_request"}


def files(*ends):
    for folder, dirs, names in os.walk(CRATES):
        dirs[:] = sorted(d for d in dirs if d not in ("out", "data"))
        for n in sorted(names):
            if n.endswith(ends):
                yield os.path.join(folder, n)


def read(p):
    with open(p, encoding="utf-8") as f:
        return f.read()


def snake(n):
    if n in OTHER:
        return OTHER[n]
    n = re.sub(r"(?<=[a-z0-9₀-₉])(?=[A-Z])", "_", n)
    n = re.sub(r"(?<=[A-Z])(?=[A-Z][a-z])", "_", n)
    return n.lower().replace("-", "_") if n[0].islower() else n.replace("-", "_")


def wants(n):
    return n[0].islower() and re.search(r"[A-Z-]", n) and "·" not in n and "->" not in n


def declared():
    own, foreign, laws, defs = set(), set(), {}, set()
    crates = set(os.listdir(CRATES))
    for p in files(".antt"):
        rel = os.path.relpath(p, CRATES).split(os.sep)
        in_function = rel[1] == "proofs" and len(rel) > 3
        for line in read(p).split("\n"):
            s = line.strip()
            if s.startswith("--"):
                continue
            u = OWNUSE.match(line)
            if u:
                m = re.match(r"Rattle\.(\w+)\.", u[1])
                if not (m and m[1] in crates):
                    b = re.search(r"\{(.*)\}", s)
                    if b:
                        foreign |= {x.split(" as ")[0].strip() for x in b[1].split(",")}
                continue
            d = DECL.match(s)
            if d and not re.search(r": (tie|goal)\.", s):
                for n in d[1].split():
                    if rel[1] == "specs":
                        defs.add(snake(n))
                    if wants(n):
                        own.add(n)
                    elif rel[1] == "proofs" and not in_function:
                        laws.setdefault(n, set()).add(p)
            # constructors of data, and names that a let or a pattern binds, keep to their file and are turned where they are written
            for n in re.findall(r"(?:let |where |λ \(?|^\()(" + W + r")(?= :| =)", s):
                if wants(n):
                    own.add(n)
    return own, foreign, laws, defs


def turn_text(t, table, seen):
    def one(m):
        w = m[0]
        if w.startswith("--"):
            return re.sub(r"`(" + W + r")`", lambda k: "`" + table.get(k[1], k[1]) + "`", re.sub(r"(?<![\w-])[a-z]+[A-Z]\w*(?![\w-])", lambda k: table.get(k[0], k[0]), w))
        if w.startswith('"'):
            return w
        if w in table:
            seen.add(w)
            return table[w]
        return w
    return TOKEN.sub(one, t)


def turn_source(t, table, seen):
    """Ghost names of a .rt file: lower camel case stands in clauses and ghost items alone; so do names with a dash and no blank round it."""
    out = []
    for line in t.split("\n"):
        code, mark, note = line.partition("//")
        def one(m):
            if m[0] in table:
                seen.add(m[0])
            return table.get(m[0], m[0])
        code = re.sub(r"(?<![\w'-])[a-z][A-Za-z0-9_]*(?:-[A-Za-z0-9_]+)*(?![\w-])", one, code)
        note = re.sub(r"`(" + W + r")`", lambda k: "`" + table.get(k[1], k[1]) + "`", re.sub(r"(?<![\w-])[a-z]+[A-Z]\w*(?![\w-])", lambda k: table.get(k[0], k[0]), note))
        out.append(code + mark + note)
    return "\n".join(out)




# Names of the library that the edits cite, as port.py turns them.
LIBRARY = {"getD": "get_or", "Option·elim": "Option-elim", "needs": "rules"}


def all_declared():
    names = set()
    for p in files(".antt"):
        for line in read(p).split("\n"):
            d = DECL.match(line.strip())
            if d:
                names |= set(d[1].split())
    return names


def turn_edits():
    names = all_declared()

    def one(m):
        w = m[0]
        if w in LIBRARY:
            return LIBRARY[w]
        if w in names or not re.match(r"[a-z]", w) or not re.search(r"[A-Z-]", w):
            return w
        s = snake(w)
        return s + "_lem" if "-" in w and s + "_lem" in names else s if s in names else w

    for p in files(".edit"):
        lines = []
        for line in read(p).split("\n"):
            m = re.match(r"(old|new):( ?)(.*)$", line)
            if m:
                line = m[1] + ":" + m[2] + re.sub(W, one, turn_edit_line(m[3]))
            elif line.startswith("#"):
                line = re.sub(r"`(" + W + r")`", lambda k: "`" + re.sub(W, one, k[1]) + "`", line)
            lines.append(line)
        with open(p, "w", encoding="utf-8") as f:
            f.write("\n".join(lines))


def turn_edit_line(s):
    s = re.sub(r"(?<![\w◌])_([^\w\s_(){}]+)_(?![\w◌])", r"◌\1◌", s)
    s = s.replace("′", "'")
    # a field that comes after its value
    for _ in range(8):
        t = re.sub(r"(?<=[\w)'₀-₉]) \.(?=[\w])", ".", s)
        if t == s:
            break
        s = t
    s = re.sub(r"(?<=[\s(])\(([\w'₀-₉]+(?:\.[\w']+)+)\)(?=[\s),;])", r"\1", s)
    s = re.sub(r"(?<=[\s(])\(([\w'₀-₉]+(?:\.[\w']+)+)\)$", r"\1", s)
    s = re.sub(r"«(\w+)»", r"\1", s)
    s = re.sub(r"Rattle·(\w+)·(specs|proofs)\.\2", r"Rattle.\1.\2", s)
    s = re.sub(r"Rattle·(\w+)", r"Rattle.\1", s)
    s = s.replace("the-variants", "TheVariants")
    s = re.sub(r"λ r\. ⌜ (.*) ⌝", lambda m: re.sub(r"(?<![\w'])r(?![\w'])", "result", m[1]), s)
    s = re.sub(r"⌜ (.*?) ⌝", r"\1", s)
    s = re.sub(r"\(now \((\w+)\.entry\)\)|now \((\w+)\.entry\)", lambda m: (m[1] or m[2]) + ".now", s)
    s = re.sub(r"\(now \((\w+)\.exit\)\)|now \((\w+)\.exit\)", lambda m: (m[1] or m[2]) + ".new", s)
    return s


def cites(t, law):
    """Whether the file imports the law from a file of proofs/."""
    return re.search(r"(?m)^use Rattle\.\w+\.proofs\.[\w.]+\{[^}]*(?<![\w-])" + re.escape(law) + r"(?![\w-])", t)


def main():
    own, foreign, laws, defs = declared()
    table = {n: snake(n) for n in own if n not in foreign}
    camel = {b for a, b in table.items() if "-" not in a} | defs
    # A law that would have its function's name is told from it by `_lem`.
    table = {a: b + "_lem" if "-" in a and b in camel else b for a, b in table.items() if a != b}
    lem = {s: s + "_lem" for s in laws if s in {b for a, b in table.items() if "-" not in a and not b.endswith("_lem")}}
    for p in files(".antt", ".rt"):
        t, seen = read(p), set()
        before = set(TOKEN.findall(t))
        if p.endswith(".rt"):
            new = turn_source(t, table, seen)
        else:
            here = {s: b for s, b in lem.items() if p in laws[s] or cites(t, s)}
            new = turn_text(t, {**table, **here} if here else table, seen)
            seen = {w for w in seen if w in table}
            before -= set(here)
        to = {}
        for w in seen:
            to.setdefault(table[w], set()).add(w)
        for b, ws in sorted(to.items()):
            if len(ws) > 1 or b in before:
                print("%s: %s%s fall together" % (os.path.relpath(p, ROOT), ", ".join(sorted(ws)), " and " + b if b in before else ""))
        if new != t:
            with open(p, "w", encoding="utf-8") as f:
                f.write(new)
    turn_edits()
    print("respell: %d names" % len(table))


main()
