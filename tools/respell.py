#!/usr/bin/env python3
"""Brings the repository's own definitions, lemmas, fields and variables of specs/, proofs/ and clauses to snake case, once, after the kit's port.py.

usage: python3 tools/respell.py [--names FILE]     at the top of the repository

1. Words in camel case that begin small (`tighterOf`) get underscores (`tighter_of`). Types, modules and names of Rust code keep their spelling: none of
   them has that form.
2. In a name with dashes that is declared here, a dash stays between two names of definitions (`size-cell_of`), and a plain word is joined by an
   underscore (`clocks_few`).

Names that fall together are printed, and nothing is written then. --names writes each old name and its new one, a pair a line.
"""
import os, re, subprocess, sys

ROOT = os.getcwd()
KIT = os.path.join(os.path.dirname(subprocess.run(["rt", "doc"], capture_output=True, text=True).stdout.strip()), "rattle")
TOKEN = re.compile(r"(?<![A-Za-z0-9_'?₀₁₂₃₄₅₆₇₈₉])[A-Za-z_][A-Za-z0-9_'?₀₁₂₃₄₅₆₇₈₉]*(?:-[A-Za-z0-9_'?₀₁₂₃₄₅₆₇₈₉]+)*")
CAMEL = re.compile(r"^[a-z].*[a-z0-9?][A-Z]|^[a-z].*[a-z0-9][A-Z]")
HEAD = re.compile(r"^(?:abbrev |unfoldable )?(?:pub )?([^\s:(){}]+) :(?: |$)", re.M)
TYPE = re.compile(r"^(?:abbrev |unfoldable )?(?:pub )?(?:data|record) (\S+)", re.M)
INNER = re.compile(r"^ +(?:pub )?([^\s:(){}]+) : ", re.M)
FIELD = re.compile(r"^ +pub ([^\s:(){}]+) : ", re.M)

# Lemmas that would fall together with the function that they speak of.
LEMMAS = {
    "due-with": "due_with_lem",
    "location-with": "location_with_lem",
    "opener-with": "opener_with_lem",
    "no_kind": "no_kind_lem",
    "row_word": "row_word_lem",
    "node_at": "node_at_lem",
    "with_bound": "with_bound_lem",
    "placed-in": "placed_in_lem",
}


def files(ends):
    for folder, dirs, names in os.walk(os.path.join(ROOT, "crates")):
        dirs[:] = sorted(d for d in dirs if d != "out")
        for n in sorted(names):
            if n.endswith(ends):
                yield os.path.join(folder, n)


def snake(part):
    """One part of a name, between dashes, in snake case where it begins small."""
    if not part or not part[0].islower():
        return part
    s = re.sub(r"(?<=[a-z0-9?'])([A-Z])", lambda m: "_" + m[1].lower(), part)
    return re.sub(r"(?<=_[a-z])([A-Z])", lambda m: "_" + m[1].lower(), s)


def code(text):
    """The text without comments and strings, to find names in."""
    return re.sub(r'"[^"\n]*"', '""', re.sub(r"(?m)--.*$|//.*$", "", text))


def std_words():
    words = set()
    for base in ("core/specs", "std/specs", "std_alloc/specs", "logic", "antt/lib", "antt/port"):
        for folder, _, names in os.walk(os.path.join(KIT, base)):
            for n in names:
                if n.endswith(".antt"):
                    with open(os.path.join(folder, n), encoding="utf-8", errors="replace") as f:
                        t = f.read()
                    words |= {m[1] for m in HEAD.finditer(t)} | {m[1] for m in TYPE.finditer(t)} | {m[1] for m in INNER.finditer(t)}
    return words


def main():
    texts = {p: open(p, encoding="utf-8").read() for p in files((".antt", ".rt"))}
    if any("no_kind_lem" in t for t in texts.values()):
        print("respell: the names are turned already, and a second run would turn some again")
        return 1
    heads, fields, tops, types, tokens, declared = set(), set(), set(), set(), set(), set()
    for p, t in texts.items():
        if p.endswith(".antt"):
            c = code(t)
            tops |= {m[1] for m in HEAD.finditer(c)}
            types |= {m[1] for m in TYPE.finditer(c)}
            if not p.endswith("Proof.antt"):
                declared |= {m[1] for m in HEAD.finditer(c)} | {m[1] for m in TYPE.finditer(c)}
            fields |= {m[1] for m in FIELD.finditer(c)}
            heads |= {m[1] for m in INNER.finditer(c)}
        tokens |= set(TOKEN.findall(code(t)))
    declared |= fields
    kit = std_words()
    plain = {w for w in tops | types | fields | heads | kit if "-" not in w}
    plain |= {snake(w) for w in plain}
    # names with dashes: which dashes stay
    dashed = {w for w in declared if "-" in w and w not in kit}

    def undash(w):
        parts = [snake(x) for x in w.split("-")]
        known = [x in plain or x.isdigit() or not x[0].islower() for x in parts]
        out = parts[0]
        for k in range(1, len(parts)):
            out += ("-" if known[k] and known[k - 1] else "_") + parts[k]
        return out

    turn = {}
    for w in tokens:
        if w in dashed:
            n = undash(w)
        elif any(CAMEL.search(x) for x in w.split("-")) and w[0].islower():
            n = "-".join(snake(x) for x in w.split("-"))
        else:
            continue
        if n != w:
            turn[w] = n
    # a lemma that would have its function's name gets `_lem`
    turn.update(LEMMAS)
    # names that fall together
    back = {}
    for w, n in turn.items():
        back.setdefault(n, set()).add(w)
    bad = [(n, ws) for n, ws in back.items() if len(ws) > 1 or (n in declared and n not in turn)]
    for n, ws in sorted(bad):
        print(f"respell: {', '.join(sorted(ws))} would be {n}" + (", which is there" if n in tokens else ""))
    if "--names" in sys.argv:
        with open(sys.argv[sys.argv.index("--names") + 1], "w") as f:
            f.writelines(f"{w} {n}\n" for w, n in sorted(turn.items()))
    if bad and "--force" not in sys.argv:
        return 1

    field_names = fields | heads

    def rename(m, text, path):
        w = m[0]
        n = turn.get(w)
        if n is None or (w in LEMMAS and not path.endswith(".antt")):
            return w
        before = text[m.start() - 1] if m.start() else ""
        # a path of made names (`c.read-zone.ensures`) keeps its dashes; a field of a record of ours does not
        if before == "." and (w in dashed or w in LEMMAS) and w not in field_names:
            return w
        return n

    edits = {p: open(p, encoding="utf-8").read() for p in files((".edit",))}
    changed = 0
    for p, t in {**texts, **edits}.items():
        new = TOKEN.sub(lambda m, t=t, p=p: rename(m, t, p), t)
        if new != t:
            changed += 1
            with open(p, "w", encoding="utf-8") as f:
                f.write(new)
    print(f"respell: {len(turn)} names, {changed} files")
    return 0


if __name__ == "__main__":
    raise SystemExit(main())
