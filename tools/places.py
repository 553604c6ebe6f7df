#!/usr/bin/env python3
"""places.py: the places of the design pass in crates/*/src/*.rt, by plain text patterns.

usage, at the top of a checkout: python3 places.py [--points 1,3] [--crates zone,model] [--apart]

One line a place, `point file:line name what`; at the end the places by kind and crate. With --apart, also what
has a point's shape and is none (APART below says why). A row is a place to look at, not a verdict.
"""
import argparse, collections, itertools, os, re, subprocess, sys

ap = argparse.ArgumentParser(description=__doc__, formatter_class=argparse.RawDescriptionHelpFormatter)
ap.add_argument("--points", default="1,2,3,4,5,6,7,8")
ap.add_argument("--crates", default="")
ap.add_argument("--apart", action="store_true")
opt = ap.parse_args()
asked, only = set(opt.points.split(",")), set(filter(None, opt.crates.split(",")))

KINDS = {
    "1a": "own enums of the shape of Option or Result",
    "1b": "structs with a flag, an answer or a number that says whether the rest means anything",
    "1c": "numbers for kinds: constants, fields, parameters, results, literals",
    "1d": "numbers for refusals: fields and parameters, functions with literals, tests against 0",
    "1e": "sentinels",
    "1f": "own answers, flags or results taken apart by hand where ? or a library method would do",
    "2a": "functions, types or constants of the same name in two places",
    "2b": "functions whose bodies are equal up to numbers, types and names",
    "2c": "twins under two names (TWINS below)",
    "3a": "loops that index a slice or an array by their counter",
    "3b": "loops whose counter only goes to a call or an index elsewhere",
    "3c": "counters kept by hand inside a loop",
    "3d": "loops written out: three or more lines in a row that differ in a number",
    "4a": "order, largest and least by hand",
    "4b": "equality by hand",
    "4c": "copying by hand",
    "4d": "conversions between answers by hand",
    "4e": "numbers, bytes and text converted or printed by hand",
    "4f": "other library methods and defaults by hand",
    "5a": "facts in three or more contracts",
    "5b": "parameters that travel together in three or more signatures",
    "6a": "a struct with a buffer and its count",
    "6b": "a count that is handed on apart from its buffer",
    "6c": "parallel arrays and arenas",
    "6d": "stores of numbers with a stride, and their sizes",
    "6e": "offsets: where a part ends is where the next begins",
    "6f": "lists searched by hand",
    "7a": "bodies that differ in one call",
    "8a": "function proofs in the form of Proof.antt",
    "8b": "lemmas that no other file and no other line names",
}
# Twins known by reading, with what they were called when the pass began and what they are called now: a group counts where two of its names are defined.
# `crate:Owner::name` or `crate:name`.
TWINS = [
    ("judge:words_refused", "judge:node_refused", "draft:stopped", "model:fault_answer", "table:answer_of"),
    ("model:ModelAnswer", "table:TableAnswer", "judge:Verdict", "draft:DraftAnswer"),
    ("model:Missing", "draft:Known", "zone:Earliest"),
    ("judge:Finding", "draft:Stop"),
    ("zone:Emptiness", "zone:Inclusion"),
    ("zone:zone_empty", "zone:zone_inside"),
    ("zone:Zone::holding_part", "zone:Zone::rest_part"),
    ("zone:add_bound", "zone:Zone::add_bound", "zone:Zone::with_bound"),
    ("zone:Zone::load", "table:NodeEntry::load"),
    ("zone:Zone::put", "table:NodeEntry::put", "draft:put_node"),
    ("model:first_missing", "table:numbers_answer"),
    ("model:missing_of", "table:missing_of"),
    ("model:Seen::with_location", "model:Seen::with_action", "model:Seen::add_location", "model:Seen::add_action", "model:Seen::add_start"),
    ("table:rows_at", "table:size_at", "table:Rows::of", "table:Rows::size"),
    ("model:Reader::good_bound", "table:Reader::good_bound"),
    ("miss_chance:of_model", "miss_chance:of_emptiness", "miss_chance:of_inclusion"),
    ("miss_chance:of_verdict", "miss_chance:of_draft"),
    ("judge_line:line_of", "draft_cli:drafted"),
]
# What has a point's shape and is no place. (kind, name) -> why
APART = {
    ("1a", "Kind"): "the kinds of a model's words; `None` stands before the first word, and for a word of no such kind",
    ("1a", "TableKind"): "the kinds of a table's words; `None` as in `Kind`",
    ("1b", "Seen"): "`target` is a fact about the last node, and says nothing of the other fields",
    ("1f", "admitted"): "another refusal than the one that came",
    ("2a", "number"): "the number of a reason, and of a kind of words",
    ("2a", "of"): "the kind of a word, the rows of a location, the value of a code, the clocks of a number",
    ("2a", "size"): "how many words a node has, and how many successors a row",
    ("2a", "rows"): "one explores the rows of a node, the other judges them",
    ("2a", "add_row"): "one adds the bounds of a row of cells, the other a row of a node to what was seen",
    ("2a", "edges_of"): "the numbers of an action's edges, and their words",
    ("2a", "Node"): "one is found, with its rows' codes; the other was read, with its value and its zone",
    ("2a", "drafted"): "the draft of a model that was read, and that of an input's bytes",
    ("2a", "EMPTY"): "each struct's own empty value",
    ("2a", "Reader"): "the two instances of `Pass`, each with the checks of its file",
    ("2a", "good_bound"): "a bound word by itself, and behind the words of each file; the readers' two are twins of 2c",
    ("2a", "missing_of"): "a pair of 2c",
    ("2a", "add_head"): "other fields",
    ("2a", "add_start"): "other fields",
    ("2a", "at"): "a reason at a place, and the parts of a scan",
    ("2a", "start"): "one makes an empty struct of slots, the other places a node",
    ("2a", "successor"): "one judges an edge against a node that is there, the other makes the node",
    ("2a", "with_location"): "the counts of a model and its index: other fields",
    ("2a", "with_action"): "the counts of a model and its index: other fields",
    ("2a", "put"): "zone's, table's and draft's are twins of 2c; those of slots and miss_chance write one struct and four words",
    ("2a", "load"): "zone's and table's are twins of 2c; that of slots reads a slice of structs",
    ("2a", "round"): "a round of an earliest point and a round of a draft's values share the word alone",
    ("2a", "adds"): "a row's share and a model's weights share the word alone",
    ("2a", "Reply"): "C's struct of the board, and the four words of document 01's calls",
    ("2a", "BLOCKED"): "the number of a kind of words, and the code of a blocked row",
    ("2a", "fields"): "each file's own kinds; what both share is in kinds::FOLLOWS",
    ("2a", "head_fields"): "each file's own head",
    ("2a", "limit"): "each file's own limits",
    ("2a", "with_head"): "other fields",
    ("2a", "with_start"): "other fields but for the place",
    ("2a", "with_word"): "each file's own kinds",
    ("2a", "NOTHING"): "each struct's own empty value",
    ("2a", "bound_fields"): "the model's calls zone's and asks more",
    ("3d", "Zone::earliest"): "a struct with four named fields",
    ("4c", "Zone::reset"): "each cell comes from another place",
    ("5b", "(at, codes)"): "places in a buffer, each function's own",
    ("6b", "first_missing"): "how many there are of what the words name, and no length of the list",
    ("6c", "IndexedModel"): "edges and zones have numbers of their own",
    ("6c", "answer"): "the input, the words and the text: none is read beside another",
    ("6d", "to_lines"): "the layout of the text, nine bytes to a line; under 3a and 4e",
    ("6d", "to_words"): "the layout of the file, four bytes to a word; under 3a and 4e",
    ("6f", "has_front"): "equality; under 4b",
    ("7a", "Seen::bound_fault"): "a twin of 2a",
}

try:
    ALL = subprocess.run(["git", "ls-files", "-co", "--exclude-standard"], capture_output=True, text=True, check=True).stdout.split("\n")
    ALL = sorted({p for p in ALL if os.path.isfile(p)})
except Exception:
    sys.exit("run it at the top of a checkout")
SRC = sorted(p for p in ALL if re.fullmatch(r"crates/[^/]+/src/.*\.rt", p))

places, apart = [], []

def crate_of(path):
    return path.split("/")[1]

def place(kind, path, line, name, what):
    if kind[0] not in asked or (only and crate_of(path) not in only):
        return
    why = APART.get((kind, name))
    (apart if why else places).append((kind, path, line, name, what if not why else why))

def away(kind, f, line, why):
    if kind[0] in asked and (not only or f.crate in only):
        apart.append((kind, f.path, line, f.name, why))

# ---- reading the files ------------------------------------------------------------------------------------------------------------
def bare(text):
    out = []
    for line in text.split("\n"):
        cut = line.find("//")
        out.append(line if cut < 0 else line[:cut])
    return "\n".join(out)

def close(text, at, pair="{}"):
    depth = 0
    for k in range(at, len(text)):
        if text[k] == pair[0]:
            depth += 1
        elif text[k] == pair[1]:
            depth -= 1
            if depth == 0:
                return k
    return len(text) - 1

def split_top(text, sep):
    parts, depth, last, k = [], 0, 0, 0
    while k < len(text):
        c = text[k]
        if c in "([{":
            depth += 1
        elif c in ")]}":
            depth -= 1
        elif depth == 0 and text.startswith(sep, k):
            if not (sep == "," and text[:k].count("<") > text[:k].count(">") + text[:k].count("->")):
                parts.append(text[last:k])
                last = k + len(sep)
        k += 1
    parts.append(text[last:])
    return [p.strip() for p in parts if p.strip()]

class Item:
    pass

fns, types, consts, bare_of = [], [], [], {}
for path in SRC:
    text = bare(open(path, encoding="utf8").read())
    bare_of[path] = text
    line = lambda at, text=text: text.count("\n", 0, at) + 1
    impls = []
    for m in re.finditer(r"^impl\b[^{]*\{", text, re.M):
        head = m.group(0)
        owner = re.search(r"(?:\bfor\s+)?(\w+)(?:<[^{]*>)?\s*\{$", head)
        impls.append((m.end() - 1, close(text, m.end() - 1), owner.group(1) if owner else "", " for " in head))
    for m in re.finditer(r"\bfn\s+(\w+)\s*(?=[<(])", text):
        f = Item()
        f.path, f.line, f.bare_name, f.crate = path, line(m.start()), m.group(1), crate_of(path)
        start = m.end()
        if text[start] == "<":
            start = close(text.replace("->", "--"), start, "<>") + 1
        if text[start] != "(":
            continue
        f.owner, f.in_trait = "", False
        for a, b, o, t in impls:
            if a < m.start() < b:
                f.owner, f.in_trait = o, t
        f.name = f.owner + "::" + f.bare_name if f.owner else f.bare_name
        end = close(text, start, "()")
        f.params = []
        for p in split_top(text[start + 1:end], ","):
            p = re.sub(r"^mut\s+", "", " ".join(p.split()))
            if re.fullmatch(r"&?\s*(mut\s+)?self", p):
                f.params.append(("self", f.owner))
            elif ":" in p:
                a, b = p.split(":", 1)
                f.params.append((a.strip(), b.strip()))
        at, f.requires, f.ensures, last = end + 1, [], [], end + 1
        f.body, f.result, f.body_line = "", "", 0
        while True:
            brace, semi = text.find("{", at), text.find(";", at)
            if brace < 0 or (0 <= semi < brace and not re.search(r"\[[^\]]*$", text[at:semi])):
                break
            between = text[last:brace]
            stop = close(text, brace)
            key = re.search(r"\b(requires|ensures|decreases)(\s+\w+)?\s*$", between)
            if not f.result and "->" in between:
                f.result = " ".join(re.split(r"\brequires\b|\bensures\b|\bwhere\b", between.split("->", 1)[1])[0].split())
            if key:
                (f.requires if key.group(1) == "requires" else f.ensures).append(" ".join(text[brace + 1:stop].split()))
                at = last = stop + 1
                continue
            f.body, f.body_at = text[brace + 1:stop], brace + 1
            f.body_line = line(brace)
            break
        f.signature = f.requires + f.ensures
        fns.append(f)
    for m in re.finditer(r"\b(struct|enum)\s+(\w+)(<[^{;(]*>)?\s*\{", text):
        t = Item()
        t.path, t.line, t.sort, t.name, t.crate = path, line(m.start()), m.group(1), m.group(2), crate_of(path)
        inside = text[m.end():close(text, m.end() - 1)]
        before = text[max(0, m.start() - 120):m.start()]
        t.for_c = bool(re.search(r"repr\(C\)[^}]*$", before))
        t.fields, t.cases = [], []
        for p in split_top(inside, ","):
            p = re.sub(r"#\[[^\]]*\]\s*", "", " ".join(p.split()))
            if t.sort == "struct":
                g = re.match(r"(?:pub(?:\([^)]*\))?\s+)?(\w+)\s*:\s*(.*)", p)
                if g:
                    t.fields.append((g.group(1), g.group(2)))
            else:
                g = re.match(r"(\w+)\s*(\(.*\)|\{.*\})?", p)
                if g:
                    t.cases.append((g.group(1), g.group(2) or ""))
        types.append(t)
    for m in re.finditer(r"\bconst\s+(\w+)\s*:\s*([^=]+?)\s*=\s*([^;]*);", text):
        c = Item()
        c.path, c.line, c.name, c.type, c.value, c.crate = path, line(m.start()), m.group(1), m.group(2), " ".join(m.group(3).split()), crate_of(path)
        consts.append(c)

def loops(f):
    """(keyword, counter, range, body, line) of each loop of a function."""
    out = []
    for m in re.finditer(r"\b(for\s+(\w+)\s+in\s+([^{]*?)|while\s+([^{]*?)|loop)\s*\{", f.body):
        brace = m.end() - 1
        body = f.body[brace + 1:close(f.body, brace)]
        out.append((m.group(1).split()[0], m.group(2) or "", (m.group(3) or m.group(4) or "").strip(), body,
                    f.body_line + f.body.count("\n", 0, m.start())))
    return out

def line_in(f, at):
    return f.body_line + f.body.count("\n", 0, at)

def uses(f, pattern):
    return [(line_in(f, m.start()), m) for m in re.finditer(pattern, f.body)]

own_types = {t.name for t in types}

# ---- point 1 ----------------------------------------------------------------------------------------------------------------------
ABSENT = {"None", "Nothing", "Absent", "Nowhere"}
GIVES = {"Accepted", "Drafted", "Good", "Ok", "Some", "At", "Found", "Granted", "Empty", "Inside"}
answers = set()
for t in types:
    if t.sort != "enum":
        continue
    cases = {c for c, _ in t.cases}
    with_place = sum(1 for _, p in t.cases if p == "(usize)")
    if cases & ABSENT or (cases & GIVES and len(cases) > 1) or with_place >= 2:
        if ("1a", t.name) not in APART:
            answers.add(t.name)
        payload = [c for c, p in t.cases if p]
        shape = "Option" if len(t.cases) == 2 and len(payload) == 1 else "Option of an error" if cases & (ABSENT | {"Good"}) else "Result"
        place("1a", t.path, t.line, t.name, f"the shape of {shape}: " + ", ".join(c for c, _ in t.cases[:4]) + (", .." if len(t.cases) > 4 else ""))
for t in types:
    if t.sort != "struct" or len(t.fields) < 2:
        continue
    for n, ty in t.fields:
        if ty == "bool" or ty in answers or (n == "number" and re.fullmatch(r"u\d+", ty)) or (n == "at" and t.name == "Decision"):
            place("1b", t.path, t.line, t.name, f"`{n}: {ty}` says whether the rest means anything" + (" (repr(C))" if t.for_c else ""))
            break
by_file = collections.defaultdict(list)
for c in consts:
    if c.type in ("u8", "u32") and re.fullmatch(r"\d+", c.value) and int(c.value) < 32:
        by_file[c.path].append(c)
for path, cs in by_file.items():
    if len(cs) >= 3:
        for c in cs:
            place("1c", path, c.line, c.name, f"a kind as the number {c.value}")
for t in types:
    for n, ty in t.fields:
        if n in ("opener", "kind") and re.fullmatch(r"u\d+", ty):
            place("1c", t.path, t.line, f"{t.name}.{n}", f"a kind as a number: {ty}")
for f in fns:
    for n, ty in f.params:
        if n == "kind" and re.fullmatch(r"u\d+", ty):
            place("1c", f.path, f.line, f"{f.name}({n})", f"a kind as a number: {ty}")
    if f.bare_name == "kind_of" and re.fullmatch(r"u\d+", f.result):
        place("1c", f.path, f.line, f.name, f"gives a kind as a number: {f.result}")
    for l, m in uses(f, r"kind_of\(\w+\) == \d+"):
        place("1c", f.path, l, f.name, "a kind by its number: " + m.group(0))
    words = re.findall(r"\b0x[5-9A-D][0-9A-F]{3}_[0-9A-F]{4}\b", f.body)
    if words:
        place("1c", f.path, f.line, f.name, "a kind inside a word's literal: " + ", ".join(words))
    if any(n == "number" and re.fullmatch(r"u(32|64)", ty) for n, ty in f.params):
        place("1d", f.path, f.line, f.name, "takes a refusal's number")
    lits = re.findall(r"(?:refusal|declined|refused_line)\(\s*(\d+)|number: ([1-9]\d*)", f.body)
    if lits:
        got = [a or b for a, b in lits]
        place("1d", f.path, f.line, f.name, "refusals by number: " + ", ".join(got[:6]) + (f", .. ({len(got)})" if len(got) > 6 else ""))
    for l, m in uses(f, r"\w+\.number [!=]= 0"):
        place("1d", f.path, l, f.name, "asks a number whether it is an acceptance: " + m.group(0))
    for l, m in uses(f, r"let (\w+)::(\w+)(\([^)]*\))? = [^;{]*? else\s*\{"):
        if m.group(1) in answers:
            place("1f", f.path, l, f.name, f"let {m.group(1)}::{m.group(2)} .. else")
    for l, m in uses(f, r"\bif let (\w+)::(\w+)"):
        if m.group(1) in answers:
            place("1f", f.path, l, f.name, f"if let {m.group(1)}::{m.group(2)}")
    for l, m in uses(f, r"(?:\bif|\bwhile|\||=)\s+!?\w+\.(good|failed|some|narrow|changed)\b"):
        place("1f", f.path, l, f.name, "asks a flag: " + " ".join(m.group(0).split()))
    for l, m in uses(f, r"Err\((\w+)\) => (?:return )?Err\(\1\b|let Ok\(\w+\) = [^;{]* else\s*\{\s*return Err"):
        place("1f", f.path, l, f.name, "a result handed on by hand")
for c in consts:
    if re.match(r"0x[Ff]{4}[_Ff]*$|255$|u\w+::MAX$|usize::MAX$", c.value):
        place("1e", c.path, c.line, c.name, f"a sentinel, {c.value}")
    if c.name == "OUTSIDE":
        place("1e", c.path, c.line, c.name, f"a flag added to a number, {c.value}")

# ---- point 2 ----------------------------------------------------------------------------------------------------------------------
TOKEN = re.compile(r"0x[0-9A-Fa-f_]+|\d[\d_]*|\w+|::|->|=>|[<>=!]=|\.\.|\S")
INTS = re.compile(r"[ui](8|16|32|64|128|size)")

def shape(f, calls=False):
    """The tokens of a body with numbers, types and local names made alike; with `calls`, called names too."""
    body = re.sub(r"\b(\w+::)+(?=[a-z_]\w*\()", "", f.body)
    if calls:
        old = None
        while old != body:
            old = body
            body = re.sub(r"\b(?!if\b|while\b|for\b|return\b|match\b|in\b)[a-z_][\w:.]*\([^()]*\)", "CALL", body)
    tokens, seen, out = TOKEN.findall(body), {}, []
    for k, w in enumerate(tokens):
        nxt = tokens[k + 1] if k + 1 < len(tokens) else ""
        if re.match(r"\d", w):
            out.append("N")
        elif INTS.fullmatch(w):
            out.append("T")
        elif re.fullmatch(r"[A-Z][A-Z0-9_]+", w):
            out.append("CALL" if w == "CALL" else "N")
        elif re.fullmatch(r"[a-z_]\w*", w) and w not in ("let", "mut", "if", "else", "for", "in", "while", "return", "match", "as", "true", "false", "self", "break", "continue"):
            if nxt == "(" and not calls:
                out.append(w)
            elif k and tokens[k - 1] == "." and not calls:
                out.append(w)
            else:
                out.append(seen.setdefault(w, f"x{len(seen)}"))
        else:
            out.append(w)
    return " ".join(out).replace("kinds :: N", "N").replace("crate :: ", "")

def forwards(f):
    return bool(re.fullmatch(r"\s*[\w:]*\b" + f.bare_name + r"\([^()]*\)\s*", f.body))

same = collections.defaultdict(list)
for f in fns:
    if not f.in_trait and not forwards(f):
        same[f.bare_name].append((f.path, f.line, f.name))
for t in types:
    same[t.name].append((t.path, t.line, t.name))
for c in consts:
    same[c.name].append((c.path, c.line, c.name))
for n, where in sorted(same.items()):
    if len({p for p, _, _ in where}) >= 2:
        where.sort()
        p, l, _ = where[0]
        place("2a", p, l, n, "also in " + ", ".join(q.replace("crates/", "").replace("/src", "") for q, _, _ in where[1:]))
alike = collections.defaultdict(list)
for f in fns:
    if len(TOKEN.findall(f.body)) >= 3 and not forwards(f):
        alike[shape(f)].append(f)
for key, group in sorted(alike.items(), key=lambda kv: kv[1][0].path):
    if len(group) >= 2 and len({g.bare_name for g in group}) > 1:
        g = group[0]
        place("2b", g.path, g.line, g.name, f"{len(group)} alike: " + ", ".join(f"{h.crate}:{h.name}" for h in group))
defined = {f"{f.crate}:{f.name}": (f.path, f.line) for f in fns}
defined.update({f"{t.crate}:{t.name}": (t.path, t.line) for t in types})
for group in TWINS:
    there = [g for g in group if g in defined]
    if len(there) >= 2:
        p, l = defined[there[0]]
        place("2c", p, l, there[0].split(":", 1)[1], "with " + ", ".join(there[1:]))

# ---- point 3 ----------------------------------------------------------------------------------------------------------------------
for f in fns:
    ls = loops(f)
    for word, counter, rng, body, l in ls:
        if word == "for" and (".." not in rng or counter.startswith("_")):
            counter = ""
        if word != "for":
            g = re.search(r"\b(\w+) \+= 1;", body)
            counter = g.group(1) if g and re.search(r"\b" + g.group(1) + r"\b", rng) else ""
        if counter:
            if re.search(r"\[[^\]]*\b" + counter + r"\b[^\]]*\]", body):
                place("3a", f.path, l, f.name, f"{word} {counter or ''} in {rng}: indexed")
            elif re.search(r"\b" + counter + r"\b", body):
                place("3b", f.path, l, f.name, f"{word} {counter} in {rng}: handed on")
        if not counter and (word == "for" and ".." in rng or word == "while" and "let " not in rng):
            away("3a", f, l, "a step so many times: nothing is indexed" if word == "for" else "adds what each read gives; nothing is indexed by it")
        own = [m.group(1) for m in re.finditer(r"\b(\w+) \+= 1;", body)]
        inner = "".join(b for w, c, r, b, k in ls if b != body and b in body)
        for n in sorted(set(own)):
            if n != counter and not re.search(r"\b" + n + r" \+= 1;", inner):
                place("3c", f.path, l, f.name, f"`{n} += 1` in a loop")
    lines = [(f.body_line + k, re.sub(r"\d+", "N", re.sub(r"0x[0-9A-Fa-f_]+", "N", s.strip()))) for k, s in enumerate(f.body.split("\n"))]
    lines = [(k, re.sub(r"N \+ N", "N", re.sub(r"\[\w+( \+ N)?\]", "[N]", re.sub(r"(/ N )?% N|/ N", "/ N", s)))) for k, s in lines]
    for s, run in itertools.groupby(lines, key=lambda x: x[1]):
        run = list(run)
        if len(run) >= 3 and re.search(r"\w", s) and "N" in s and "=>" not in s:
            place("3d", f.path, run[0][0], f.name, f"{len(run)} lines: {s[:60]}")

# ---- point 4 ----------------------------------------------------------------------------------------------------------------------
def squeezed(f):
    return " ".join(f.body.split())

all_zero = collections.defaultdict(list)
for f in fns:
    s = squeezed(f)
    for m in re.finditer(r"if ([\w.]+) < ([\w.]+) \{ (?:return )?([\w.]+);? \} (?:else \{ )?([\w.]+)", s):
        if {m.group(1), m.group(2)} == {m.group(3), m.group(4)} or {m.group(3), m.group(4)} <= {m.group(1), m.group(2)}:
            place("4a", f.path, f.line, f.name, "the larger or the lesser of two")
    if re.search(r"if \w+ \+ \w+ < (\w+) \{ \1 - \w+ \} else", s):
        place("4a", f.path, f.line, f.name, "the larger of two, with a difference that stops at 0")
    if re.search(r"\* \(1 - \w+\)", s):
        place("4a", f.path, f.line, f.name, "the lesser of two, by a factor of 0 or 1")
    if f.owner and f.result == "bool" and re.search(r"^\w+\.?\w*\(\w+\) < 0$|gap\(", s):
        place("4a", f.path, f.line, f.name, "an order, by a difference")
    if re.search(r"\((\w+) < (\w+)\) \| \(\(\1 == \2\) & ", s):
        place("4a", f.path, f.line, f.name, "an order by two fields")
    if re.search(r"let ahead = .*before\(", s):
        place("4a", f.path, f.line, f.name, "the lesser of two, where there is a first")
    if re.search(r"-\(other\.\w+ as i64\)", s):
        place("4a", f.path, f.line, f.name, "a difference in a wider type, for the order alone")
    if re.search(r"!= [\w.]+\[[^\]]*\] \{ return false; \} \} true$", s):
        place("4b", f.path, f.line, f.name, "equality of two lists, cell by cell")
    if re.search(r"=> (true|false), \S+ => (true|false),? \}$", s):
        place("4b", f.path, f.line, f.name, "asks which case it is")
    if re.search(r"\(([^()]*)\) & !\(([^()]*)\) \| !\(\1\) & \(\2\)", s):
        place("4b", f.path, f.line, f.name, "that two truths differ")
    for word, counter, rng, body, l in loops(f):
        stmts = [x.strip() for x in body.split(";") if x.strip()]
        sets = [x for x in stmts if re.match(r"[\w.]+\[[^=]*\] = ", " ".join(x.split()))]
        one = " ".join(" ".join(body.split()).split())
        if len(sets) == 1 and all(x in sets or x.startswith("let ") for x in stmts):
            rhs = one.split("] = ", 1)[1]
            source = rhs if "[" in rhs else one
            if "(" not in one.replace("(p - from)", "") and re.search(r"\w\[", source.replace(sets[0].split("]")[0], "")):
                place("4c", f.path, l, f.name, "a loop that copies cell by cell")
            elif re.search(r"\] = \w+\(\w+\[\w+\]\);$", one):
                place("4c", f.path, l, f.name, "a loop that copies, through one function")
        if re.search(r"(\w+) = with\(\1, (\w+), \w+\[\2\]\)", one):
            place("4c", f.path, l, f.name, "a loop that copies, through one function")
    kinds_in = [ty for _, ty in f.params if ty in answers]
    if kinds_in and f.result in own_types and "match " in s:
        place("4d", f.path, f.line, f.name, f"{kinds_in[0]} to {f.result}")
    elif re.match(r"of_", f.bare_name) and f.result in own_types:
        place("4d", f.path, f.line, f.name, f"{f.params[0][1]} to {f.result}")
    if re.fullmatch(r"(?!self )\w+ as u\d+", s):
        place("4e", f.path, f.line, f.name, "a wider number: " + s)
    if re.search(r"\b48 \+|\b55 \+|b'0' \+", s):
        place("4e", f.path, f.line, f.name, "a digit's character")
    if len(re.findall(r"hex_digit\(", s)) >= 2:
        place("4e", f.path, f.line, f.name, "a number's digits, one by one")
    if re.search(r"\* 256\) \+|\* 256 \+", s):
        place("4e", f.path, f.line, f.name, "a word of four bytes")
    if f.result == "Line" and not f.owner and "with_number" in s:
        place("4e", f.path, f.line, f.name, "a line of text put together by hand")
    if re.search(r"% 0x1_0000_0000\) as u32", s):
        place("4e", f.path, f.line, f.name, "the low 32 bits of a number, as a remainder")
    if f.bare_name in ("code_of", "row_word") and re.search(r"\bu(8|32)\b", f.result):
        place("4e", f.path, f.line, f.name, "a row's code as a number")
    if re.search(r"\((\w+) \+ \((\w+) - 1\)\) / \2", s):
        place("4f", f.path, f.line, f.name, "a quotient rounded up (div_ceil)")
    if re.search(r"if \w+\.len\(\) == 0 \{ return", s):
        place("4f", f.path, f.line, f.name, "the first of a list, or what is behind it (first, split_first)")
    if re.search(r"^if \w+ < \w+\.len\(\) \{ \w+\[\w+\] = ", s):
        place("4f", f.path, f.line, f.name, "a cell that may not be there (get_mut)")
    if len(re.findall(r"% 2 == 1|/ (?:4|8|0x10) == 0", s)) >= 3:
        place("4f", f.path, f.line, f.name, "a shift, case by case")
    for m in re.finditer(r"\b([A-Z]\w+) \{((?: \w+: (?:0|false),)+) \}", s):
        if m.group(2).count(":") >= 3:
            all_zero[m.group(1)].append((f.path, f.line, f.name))
for t, where in all_zero.items():
    if len(where) >= 2:
        for p, l, n in where:
            place("4f", p, l, n, f"an empty {t} written out (a constant or Default)")

# ---- point 5 ----------------------------------------------------------------------------------------------------------------------
field_type = {t.name: dict(t.fields) for t in types}

def plain(ty):
    ty = re.sub(r"^&(mut )?", "", ty)
    return re.sub(r"^\[(\w+)(; [^\]]*)?\]$", r"[\1]", ty)

def fact_shape(f, fact):
    """A fact with the type of each parameter in its place; a comparison with a number keeps the name."""
    own = re.match(r"\(?[A-Z]\w*", fact)
    ty = dict(f.params)
    ty["result"] = f.result
    def repl(m):
        n, rest = m.group(1), re.sub(r"^\.(now|old|new)\b", "", m.group(2) or "")
        if n not in ty:
            return m.group(0)
        if not own:
            return "‹" + plain(ty[n]) + "›" + rest if rest else n
        t = ty[n]
        for step in filter(None, rest.split(".")):
            t = field_type.get(t, {}).get(step, t + "." + step)
        return "‹" + plain(t) + "›"
    fact = re.sub(r"(?<![\w.?-])([a-z_]\w*)((?:\.\w+)*)(?![\w?-])", repl, fact)
    return re.sub(r"(?<= )\d+(?= |$)", "n", fact) if own else fact

def facts_of(clause):
    for p in split_top(clause, "×"):
        while p.startswith("(") and close(p, 0, "()") == len(p) - 1:
            p = p[1:-1].strip()
        yield from split_top(p, "×")

facts = collections.defaultdict(list)
for f in fns:
    for clause in f.requires + f.ensures:
        for q in facts_of(clause):
            while q.startswith("(") and close(q, 0, "()") == len(q) - 1:
                q = q[1:-1].strip()
            facts[fact_shape(f, q)].append(f)
by_name = collections.defaultdict(list)
for f in fns:
    for q in {m for clause in f.requires for m in re.findall(r"(?:^|× |\()([A-Z]\w+)(?= )", clause)}:
        by_name[q].append(f)
for name, who in by_name.items():
    # the same fact about other types, or about parts of a value: by its name
    if all(len({(g.path, g.line) for g in facts[k]}) < 3 for k in list(facts) if k.startswith(name + " ")):
        facts[name + " .."] = who
for fact, who in sorted(facts.items(), key=lambda kv: -len(kv[1])):
    at = sorted({(g.path, g.line, g.name) for g in who if not forwards(g) and g.crate != "miss_chance_c"})
    # what a function's result equals is its own promise, and no fact about a value
    if len(at) >= 3 and not re.search(r" ≡ |→|^Replies\b", fact):
        names = [n for _, _, n in at]
        place("5a", at[0][0], at[0][1], "{" + fact + "}", f"{len(at)} contracts: " + ", ".join(names[:9]) + (", .." if len(names) > 9 else ""))
for crate in sorted({f.crate for f in fns}):
    sigs = [(f, frozenset((n, re.sub(r"^&mut ", "&", ty)) for n, ty in f.params if n != "self")) for f in fns
            if f.crate == crate and not f.in_trait and not forwards(f)]
    sets = {a & b for (f, a), (g, b) in itertools.combinations(sigs, 2) if len(a & b) >= 2}
    grown = {c: [f for f, a in sigs if c <= a] for c in sets}
    grown = {c: w for c, w in grown.items() if len(w) >= 3}
    for c, w in sorted(grown.items(), key=lambda kv: (-len(kv[0]), -len(kv[1]), sorted(kv[0]))):
        # a smaller group counts only where three signatures have it and no larger group
        larger = [d for d in grown if c < d]
        if len([f for f in w if not any(f in grown[d] for d in larger)]) >= 3 or not larger:
            g = w[0]
            place("5b", g.path, g.line, "(" + ", ".join(sorted(n for n, _ in c)) + ")", f"{len(w)} signatures: " + ", ".join(x.name for x in w[:9]) + (", .." if len(w) > 9 else ""))

# ---- point 6 ----------------------------------------------------------------------------------------------------------------------
for t in types:
    if t.sort != "struct":
        continue
    arrays = [n for n, ty in t.fields if ty.startswith("[")]
    count = [n for n, ty in t.fields if n in ("count", "size", "len", "length") and re.fullmatch(r"u\w+", ty)]
    if arrays and count:
        place("6a", t.path, t.line, t.name, f"`{arrays[0]}` and its `{count[0]}`" + (" (repr(C))" if t.for_c else ""))
    elif not arrays and len(t.fields) <= 6 and (("count", "usize") in t.fields or {("nodes", "usize"), ("codes", "usize")} <= set(t.fields)):
        place("6b", t.path, t.line, t.name, "counts of buffers that stand elsewhere: " + ", ".join(n for n, ty in t.fields if n in ("count", "nodes", "codes") and ty == "usize"))
    if len(arrays) >= 2:
        place("6c", t.path, t.line, t.name, "parallel arrays: " + ", ".join(arrays))
for f in fns:
    slices = [n for n, ty in f.params if re.match(r"&(mut )?\[", ty)]
    if any(n == "count" and ty == "usize" for n, ty in f.params) and slices:
        place("6b", f.path, f.line, f.name, "`count` beside " + ", ".join(slices))
    local = re.findall(r"let mut (\w+) = \[(?:0\w*|false); ", f.body)
    if len(local) >= 2:
        place("6c", f.path, f.line, f.name, "stores side by side: " + ", ".join(local))
    if re.match(r"\[bool; ", f.result):
        place("6c", f.path, f.line, f.name, "an array with an answer for each node, beside their stores")
    hit = re.search(r"\w+ \* (25|27|9|3)\b|\w+ \* NODE_SLOT|\.\.\w+ / 4\b|\w+ \* 4\)", f.body)
    if hit:
        place("6d", f.path, f.line, f.name, "by a stride: " + hit.group(0))
    offs = re.findall(r"(\w+)\[(\w+) \+ 1\] as usize", f.body)
    offs = [(a, b) for a, b in offs if re.search(re.escape(a) + r"\[" + re.escape(b) + r"\] as usize", f.body)]
    if offs:
        place("6e", f.path, f.line, f.name, "from x[i] up to x[i + 1]: " + ", ".join(sorted({a for a, _ in offs})))
    elif re.search(r"\bends\[n - 1\]", f.body):
        place("6e", f.path, f.line, f.name, "from ends[n - 1] up to ends[n]")
    for word, counter, rng, body, l in loops(f):
        one = " ".join(body.split())
        if re.fullmatch(r"(let [^;]*; )*if [^{]* \{ return [^;{}]*; \}( \w+ \+= 1;)?", one):
            place("6f", f.path, l, f.name, "the first that has a property")
for c in consts:
    if re.search(r"KEYS|NUMBERS|SLOT\b|NODE_WORDS|CODES", c.name):
        place("6d", c.path, c.line, c.name, f"a store's size or stride, {c.value}")

# ---- point 7 ----------------------------------------------------------------------------------------------------------------------
bodies = collections.defaultdict(list)
for f in fns:
    bodies[shape(f, calls=True)].append(f)
for key, group in sorted(bodies.items(), key=lambda kv: kv[1][0].path):
    group = [g for g in group if not forwards(g)]
    if len(group) >= 2 and len(key.split()) >= 12 and "CALL" in key and len({shape(g) for g in group}) > 1:
        g = group[0]
        place("7a", g.path, g.line, g.name, f"{len(group)} alike but for a call: " + ", ".join(f"{h.crate}:{h.name}" for h in group))
for f in fns:
    for l, m in uses(f, r"match (kind|step|mode|which|fault)\w* \{"):
        arms = f.body[m.end():close(f.body, m.end() - 1)]
        if re.search(r"=>[^,{]*\(|=> \{", arms) and f.bare_name not in ("fault_answer", "answer_of"):
            away("7b", f, l, "a match on a closed list of kinds")
    for n, ty in f.params:
        if ty == "bool":
            away("7b", f, f.line, f"`{n}` was worked out before and is handed on; no step is chosen by a caller")

# ---- point 8 ----------------------------------------------------------------------------------------------------------------------
PROOFS = [p for p in ALL if re.fullmatch(r"crates/[^/]+/proofs/.*\.antt", p)]
lines_of = collections.Counter()
files_of = collections.Counter()
old_lines = collections.Counter()
texts = {}
for p in PROOFS:
    t = open(p, encoding="utf8").read()
    texts[p] = t
    n = len(t.splitlines())
    lines_of[crate_of(p)] += n
    form = p.rsplit("/", 1)[1]
    files_of[crate_of(p), form if form in ("Proof.antt", "Answers.antt", "Invariants.antt") else "other"] += 1
    if form == "Proof.antt":
        old_lines[crate_of(p)] += n
        place("8a", p, 1, p.split("/proofs/")[1].rsplit("/", 1)[0], f"{n} lines")
if "8" in asked:
    word_count = collections.Counter()
    # a name in a `using(..)` of the code stands behind `::`; the page on this pass lists names and cites none
    NAME = re.compile(r"(?:::)?([^\s(){}.,;:\[\]`«»\"]+(?::[^\s(){}.,;:\[\]`«»\"]+)*)")
    for p in ALL:
        if p == "docs/DESIGN-PASS.md":
            continue
        if p in texts or re.search(r"\.(antt|rt|md)$", p) or "/must-fail/" in p:
            try:
                word_count.update(NAME.findall(texts.get(p) or open(p, encoding="utf8").read()))
            except OSError:
                pass
    for p in PROOFS:
        if p.rsplit("/", 1)[1] in ("Proof.antt", "Answers.antt", "Invariants.antt"):
            continue
        for m in re.finditer(r"^pub ([^\s:]+) :", texts[p], re.M):
            n = m.group(1)
            here = len([w for w in NAME.findall(texts[p]) if w == n])
            head = len(re.findall(r"^" + re.escape(n) + r"(?=[\s:=])", texts[p], re.M))
            if word_count[n] - here <= 0 and here - head - 1 <= 0:
                place("8b", p, texts[p].count("\n", 0, m.start()) + 1, n, "a lemma or theorem that nothing names")

# ---- what was found ---------------------------------------------------------------------------------------------------------------
places.sort()
for kind, path, line, name, what in places:
    print(f"{kind} {path}:{line} {name} — {what}")
if opt.apart:
    print("\nOf a point's shape, and no place:")
    for kind, path, line, name, why in sorted(set(apart)):
        print(f"{kind} {path}:{line} {name} — {why}")
crates = sorted({crate_of(p) for p in ALL if p.startswith("crates/") and p.count("/") > 1})
table = collections.Counter((k, crate_of(p)) for k, p, _, _, _ in places)
used = [c for c in crates if any(table[k, c] for k in KINDS)]
print("\n" + "kind".ljust(5) + "".join(c[:11].rjust(12) for c in used) + "all".rjust(7))
for k in KINDS:
    if k[0] in asked:
        print(k.ljust(5) + "".join(str(table[k, c] or "-").rjust(12) for c in used) + str(sum(table[k, c] for c in used)).rjust(7) + "  " + KINDS[k])
for n in "12345678":
    if n in asked:
        print((n + " all").ljust(5) + "".join(str(sum(table[k, c] for k in KINDS if k[0] == n) or "-").rjust(12) for c in used)
              + str(sum(v for (k, c), v in table.items() if k[0] == n)).rjust(7))
if "8" in asked:
    print("\nproofs: " + ", ".join(f"{c} {lines_of[c]} lines" + (f" ({files_of[c, 'Proof.antt']} Proof.antt of {old_lines[c]})" if files_of[c, "Proof.antt"] else "") for c in crates if lines_of[c]))
    print(f"all: {sum(lines_of.values())} lines, of them {sum(old_lines.values())} in {sum(v for (c, f), v in files_of.items() if f == 'Proof.antt')} Proof.antt; "
          f"{sum(v for (c, f), v in files_of.items() if f == 'Answers.antt')} Answers.antt, {sum(v for (c, f), v in files_of.items() if f == 'Invariants.antt')} Invariants.antt")
