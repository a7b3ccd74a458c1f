#!/usr/bin/env python3
"""Counts the places of the eight points in src/ (and the proofs for point 8), at the top of a checkout of today's form.

usage: count_places.py [POINT..] [--list]    POINT 1..8, or all; --list prints each place as FILE:LINE and what it is
       count_places.py inner [--list]        which public functions README and docs/ name
"""
import difflib, itertools, os, re, signal, sys
from collections import Counter, defaultdict

signal.signal(signal.SIGPIPE, signal.SIG_DFL)
CR = "crates"
LIST = "--list" in sys.argv
WANT = [a for a in sys.argv[1:] if a.isdigit()] or ([] if "inner" in sys.argv else list("12345678"))
PROGRAMS = {"replay", "vectors", "worked"}          # programs
EXPORTS = {"kombudeva_c"}                           # exports for C


def blank(t):
    """Comments, strings and characters made spaces, so that brackets count."""
    return re.sub(r'//[^\n]*|"(?:[^"\\]|\\.)*"|b?\'(?:\\.|[^\'\\\n])\'', lambda m: re.sub(r"[^\n]", " ", m[0]), t)


def sources():
    for c in sorted(os.listdir(CR)):
        d = f"{CR}/{c}/src"
        for dirpath, _, names in os.walk(d):
            for n in sorted(names):
                if n.endswith(".rt"):
                    f = f"{dirpath}/{n}"
                    yield c, f, open(f).read()


SRC = list(sources())


def close(b, k):
    d = 0
    while True:
        d += {"{": 1, "}": -1, "(": 1, ")": -1}.get(b[k], 0)
        if d == 0:
            return k
        k += 1


class Fn:
    def __init__(s, crate, file, text, b, m):
        s.crate, s.file, s.name = crate, file, m["name"]
        s.line = text.count("\n", 0, m.start("name")) + 1
        s.pub = "pub" in m[0]
        s.exported = 'extern "C"' in text[max(0, m.start() - 60):m.end()]
        p = b.index("(", m.end())
        q = close(b, p)
        s.params = []
        for part in re.split(r",(?![^\[<(]*[\]>)])", text[p + 1:q]):
            if ":" in part:
                n, t = part.split(":", 1)
                s.params.append((n.replace("mut ", "").strip(), " ".join(t.split())))
        j = q + 1
        k = b.find("{", j)
        while re.search(r"(requires|ensures|ghost)\*?\s*\w*\s*:?\s*$", b[j:k]):
            j = close(b, k) + 1
            k = b.find("{", j)
        s.head = text[q + 1:k]
        s.result = (re.match(r"\s*->\s*([^{]*?)\s*(?:requires|ensures|$)", s.head.strip(), re.S) or [None, ""])[1].strip()
        s.result = " ".join(s.result.split())
        e = close(b, k)
        s.body, s.bbody = text[k:e + 1], b[k:e + 1]
        s.bline = text.count("\n", 0, k) + 1
        s.clauses = re.findall(r"(requires|ensures)\s*\w*\s*\{(.*?)\}\s*(?=requires|ensures|$)", s.head.strip(), re.S)

    @property
    def where(s):
        return f"{s.file[len(CR) + 1:]}:{s.line} fn {s.name}"


FNRE = re.compile(r"(?m)^[ \t]*(?:pub(?:\([a-z]+\))? )?(?:const )?(?:extern \"C\" )?fn (?P<name>\w+)")


def functions():
    for c, f, t in SRC:
        b = blank(t)
        for m in FNRE.finditer(b):
            yield Fn(c, f, t, b, m)


FNS = list(functions())


def types():
    """(crate, file, line, kind, name, body, repr C, derives)"""
    for c, f, t in SRC:
        b = blank(t)
        for m in re.finditer(r"(?m)^(?:pub )?(enum|struct) (\w+)\s*\{", b):
            e = close(b, b.index("{", m.start()))
            before = t[:m.start()].rsplit("\n\n", 1)[-1]
            yield c, f, t.count("\n", 0, m.start()) + 1, m[1], m[2], b[m.end():e], "repr(C)" in before, re.findall(r"derive\(([^)]*)\)", before)


TYPES = list(types())


def show(title, places):
    print(f"{len(places):4}  {title}")
    if LIST:
        for p in places:
            print(f"          {p}")


def at(c, f, line, what):
    return f"{f[len(CR) + 1:]}:{line} {what}"


def point1():
    print("1. own enums, flags with values, numbers for kinds")
    opt, res, other = [], [], []
    for c, f, l, kind, name, body, rc, _ in TYPES:
        if kind != "enum":
            continue
        vs = re.findall(r"(?m)^\s*(\w+)\s*(\{|\()?", re.sub(r"\{[^}]*\}", "{", body))
        units = [v for v, x in vs if not x]
        full = [v for v, x in vs if x]
        what = f"enum {name}: {' '.join(v + '(..)' if x else v for v, x in vs)}"
        (opt if len(full) == 1 and len(units) == 1 else res if full and len(units) >= 1 and len(vs) == 3 else other).append(at(c, f, l, what))
    show("enums of Option's shape (one case with values, one without)", opt)
    show("enums of three cases, values and kinds of none (Result, or Result of Option)", res)
    show("other enums (kinds, states)", other)
    fields = lambda b: ", ".join(re.findall(r"(\w+):", b))
    flag = [(at(c, f, l, "struct " + n + " { " + fields(b) + " }"), rc)
            for c, f, l, k, n, b, rc, _ in TYPES if k == "struct" and re.search(r"\b(number|asks|hybrid|event): u32|\blonger: bool", b)]
    show("structs with a number or flag beside values, C's own (repr(C))", [x for x, rc in flag if rc])
    show("structs with a number or flag beside values, not C's", [x for x, rc in flag if not rc])
    u32 = [x for x in FNS if x.result == "u32" and x.crate not in EXPORTS and x.crate not in ("bits", "kombudeva") and (re.search(r"numbers::|\b0\b|number|refus", x.body) or "mode" in x.name)]
    show("functions that give a number of the table as u32", [x.where for x in u32 if x.crate not in ("stream",)])
    show("functions that give a mode or event as u32 (stream)", [x.where for x in u32 if x.crate == "stream"])
    ks = []
    for c, f, t in SRC:
        for m in re.finditer(r"(?m)^(?:pub )?const (\w+): (\w+) = ", t):
            if m[2] in ("u32", "u8") or (c == "frames" and m[2] == "usize"):
                if c in ("numbers", "stream", "header", "frames"):
                    ks.append(at(c, f, t.count("\n", 0, m.start()) + 1, f"{m[1]}: {m[2]}"))
    show("constants that are kinds or numbers", ks)
    no = [x for x in FNS if re.match(r"(no_|not_|refus|without|unread)", x.name) and x.result not in ("bool", "u32", "usize")]
    show("functions that make the zeros beside a refusal", [x.where for x in no])
    seen = []
    for x in FNS:
        if "seen: bool" in ", ".join(f"{n}: {t}" for n, t in x.params) or re.search(r"let mut seen = false", x.body):
            seen.append(x.where + " (seen, and what was seen)")
    show("a flag `seen` beside what was seen", seen)
    done = sum(len(re.findall(r"(?:==|!=) (?:0|numbers::DONE|DONE)\b", x.body)) for x in FNS if "number" in x.body or "first" in x.body)
    print(f"{done:4}  tests of a number against 0 or DONE")


def shape(x):
    t = re.sub(r"//[^\n]*", "", x.body)
    return re.findall(r"\w+|[^\w\s]", t)


def point2():
    print("2. twins: functions whose bodies are the same but for names, types, sizes (difflib 0.82 of tokens, 40 tokens or more)")
    fs = [x for x in FNS if x.crate not in EXPORTS | {"kombudeva"} and len(shape(x)) >= 40]
    toks = {id(x): shape(x) for x in fs}
    norm = {}
    for x in fs:
        ids = {}
        norm[id(x)] = [ids.setdefault(w, f"v{len(ids)}") if re.match(r"[a-z_]\w*$", w) and w not in ("let", "mut", "while", "if", "else", "return", "match", "for", "in", "as") else ("N" if w[0].isdigit() else w) for w in toks[id(x)]]
    pairs = []
    for x, y in itertools.combinations(fs, 2):
        a, b = norm[id(x)], norm[id(y)]
        if min(len(a), len(b)) / max(len(a), len(b)) < 0.8:
            continue
        s = difflib.SequenceMatcher(None, a, b, autojunk=False)
        if s.quick_ratio() >= 0.82 and s.ratio() >= 0.82:
            r2 = difflib.SequenceMatcher(None, toks[id(x)], toks[id(y)], autojunk=False).ratio()
            if r2 >= 0.6:
                pairs.append((s.ratio(), x, y))
    seen, groups = {}, []
    for r, x, y in sorted(pairs, key=lambda p: -p[0]):
        g = seen.get(id(x)) or seen.get(id(y))
        if g is None:
            g = []
            groups.append(g)
        for z in (x, y):
            if z not in g and id(z) not in seen:
                g.append(z)
                seen[id(z)] = g
    show("groups of twins (functions)", [" = ".join(z.where for z in g) for g in groups if g])


def loops():
    for x in FNS:
        for m in re.finditer(r"(?<![\w.])(while|for|loop)\b", x.bbody):
            b0 = x.bbody.index("{", m.end())
            e = close(x.bbody, b0)
            yield x, m[1], " ".join(x.body[m.start():b0].split()), x.body[b0:e + 1], x.body[:m.start()], x.bline + x.body.count("\n", 0, m.start())


def kind_of_loop(cond, body, before):
    m = re.match(r"while (?:(\d+) <=? )?(\w+)(?: \+ (\d+))? ?(<=|<|!=|>) ?(.+)$", cond)
    if not m:
        m2 = re.match(r"while (\d+) (<=?) (\w+)(?: - (\w+))?$", cond)
        if m2:
            v = m2[3]
            if m2[4] or re.search(r"\.len", cond):
                return "blocks of 64 counted"
            return "downward" if re.search(rf"\b{v} -= ", body) else "other"
        if re.match(r"while 64 <= ", cond):
            return "blocks of 64 counted"
        return "other"
    v = m[2]
    sets = re.findall(rf"(?<![\w.]){v} (\+=|-=|=) ([^;]+);", body)
    if len(sets) == 1 and sets[0][0] == "+=" and sets[0][1] == "1":
        # is the step the last or first thing of the body, with no continue?
        return "up by one"
    if len(sets) == 1 and sets[0][0] == "+=" and re.fullmatch(r"\d+", sets[0][1]):
        return "up by a fixed step"
    if len(sets) == 1 and sets[0][0] == "-=":
        return "downward"
    if re.search(rf"(?<![\w.]){v} = (next|end|k|behind|e|at|start)\b", body) or re.search(rf"(?<![\w.]){v} (=|\+=) ", body):
        return "a cursor moved by what was read"
    return "other"


def point3():
    print("3. loops")
    d = defaultdict(list)
    for x, kw, cond, body, before, line in loops():
        k = "for already" if kw != "while" else kind_of_loop(cond, body, before)
        d[k].append(f"{x.file[len(CR) + 1:]}:{line} fn {x.name}: {cond}")
    for k in sorted(d, key=lambda k: -len(d[k])):
        show(k, d[k])
    print(f"{sum(len(v) for k, v in d.items() if k != 'for already'):4}  while loops in all")


def point4():
    print("4. equality, order, copying, conversion, printing by hand")
    pats = [
        ("equality by a loop", lambda x: re.search(r"\[i\] != \w+\[i\]", x.body) and "return false" in x.body),
        ("copying by a loop (copy_from_slice, fill)", lambda x: re.search(r"while [^{]*\{\s*\w+\[[^\]]+\] = (\w+\[[^\]]+\]|0|mark);\s*\w+ \+= 1;\s*\}", x.body)),
        ("the smaller of two", lambda x: re.search(r"^\{\s*if (\w+) < (\w+) \{\s*return \1;\s*\}\s*\2\s*\}$|^\{\s*if (\w+) < (\w+) \{ \3 \} else \{ \4 \}\s*\}$", x.body)),
        ("&& or || by ifs", lambda x: re.search(r"^\{\s*if \w+ \{ .* \} else \{ false \}\s*\}$", x.body)),
        ("a cast with a name (usize::from, u32::from)", lambda x: re.search(r"^\{\s*\w+ as (usize|u32|u64)\s*\}$", x.body)),
        ("bytes of a word by shifts (to_be_bytes)", lambda x: len(re.findall(r">> \d+", x.body)) >= 3 and "as u8" in x.body or x.name == "put_bits"),
        ("a word of bytes by products or shifts (from_be_bytes)", lambda x: re.search(r"16777216|<< 24", x.body)),
        ("one struct made of another (From)", lambda x: x.crate == "kombudeva" and x.name.endswith("_answer") and not x.pub or x.name in ("to_words", "from_words", "lane_of", "standing")),
        ("a library's integer method by hand (div_ceil, is_power_of_two, ilog2, rotate_right)", lambda x: x.name in ("ceil_div", "rotr", "rotl", "log2", "is_piece_length", "add")),
        ("0 or 1 of a test, one more or none", lambda x: re.search(r"\{ (0|1) \} else \{ (0|1) \}|return n \+ 1;|return count \+ 2;|return files;", x.body)),
    ]
    for title, p in pats:
        show(title, [x.where for x in FNS if x.crate not in EXPORTS and p(x)])
    casts = Counter()
    for c, f, t in SRC:
        if c not in EXPORTS:
            for m in re.finditer(r"\bas (u8|u32|u64|usize)\b", blank(t)):
                casts[c] += 1
    print(f"{sum(casts.values()):4}  casts with `as` ({', '.join(f'{c} {n}' for c, n in casts.most_common(8))})")
    der = Counter()
    for *_, d in TYPES:
        for x in d:
            der[x] += 1
    print("      derives: " + ", ".join(f"{k}: {v}" for k, v in der.most_common()))
    show("types with no derive", [at(c, f, l, n) for c, f, l, k, n, b, rc, d in TYPES if not d])
    show("impl blocks", [f"{f[len(CR) + 1:]}" for c, f, t in SRC for m in re.finditer(r"(?m)^impl", t)])
    show("functions that print", [x.where for x in FNS if re.search(r"writeln!|println!|write!", x.body)])


def point5():
    print("5. parameters that travel together, clauses that stand in three functions or more")
    sets = defaultdict(list)
    for x in FNS:
        if x.crate in EXPORTS | {"kombudeva"}:
            continue
        ps = [p for p in x.params if p[0] != "self"]
        for n in (2, 3, 4):
            for s in itertools.combinations(sorted(ps), n):
                sets[(x.crate, s)].append(x)
    closed = {}
    for (c, s), xs in sets.items():
        k = (c, frozenset(id(x) for x in xs))
        if k not in closed or len(s) > len(closed[k][0]):
            closed[k] = (s, xs)
    groups = [(c, s, xs) for (c, _), (s, xs) in closed.items() if len(xs) >= 3 and len(s) >= 3 or len(xs) >= 6]
    keep = [g for g in groups if not any(o is not g and o[0] == g[0] and set(g[1]) < set(o[1]) and len(o[2]) >= 0.6 * len(g[2]) for o in groups)]
    keep.sort(key=lambda g: -len(g[2]) * len(g[1]))
    show("groups of parameters (crate: names; functions)", [f"{c}: {', '.join(f'{n}: {u}' for n, u in s)}  x{len(xs)}: {' '.join(x.name for x in xs)}" for c, s, xs in keep])
    show("functions that take a store as bytes, `store: &[u8]` or `store: &mut [u8]`", [x.where for x in FNS if x.crate not in EXPORTS and any(n == "store" for n, _ in x.params)])
    long = [x for x in FNS if len(x.params) >= 6 and x.crate not in EXPORTS | {"kombudeva"}]
    show("functions of six parameters or more", [f"{x.where} ({len(x.params)})" for x in long])
    cl = defaultdict(list)
    for x in FNS:
        if x.crate in EXPORTS:
            continue
        for k, body in x.clauses:
            if k == "requires":
                for part in re.split(r"\s×\s", body):
                    p = " ".join(part.strip(" ()\n").split())
                    p = re.sub(r"\.(now|old)\b", "", p)
                    if len(p) > 14:
                        cl[(x.crate, p)].append(x)
    rep = sorted(((k, v) for k, v in cl.items() if len(v) >= 3), key=lambda kv: -len(kv[1]))
    show("parts of `requires` that stand in three functions or more of a crate", [f"{c}: {p}  x{len(v)}" for (c, p), v in rep])


def point6():
    print("6. buffers with a length, parallel arrays, sorted lists, arenas")
    show("a slice with a count beside it", [x.where + f" ({s}, {n})" for x in FNS if x.crate not in EXPORTS for s, st in x.params if re.search(r"\[(u32|usize)\]", st) or s in ("heap", "tail") for n, nt in x.params if n in ("count", "full", "depth", "most", "kept", "leaves", "have", "m") and nt == "usize" and (s != "heap" or n in ("leaves", "m")) and (s == "heap" or n != "m")])
    show("positions in bytes handed on beside the bytes (bytes, at)", [x.where for x in FNS if x.crate not in EXPORTS and any(t == "&[u8]" for _, t in x.params) and any(n == "at" and t == "usize" for n, t in x.params)])
    show("a part as start and end beside one another", [x.where for x in FNS if {"start", "end"} <= {n for n, _ in x.params}])
    show("searched by hand", [x.where for x in FNS if x.name in ("search", "find_layer", "find", "held_front", "find_place", "file_at")])
    show("sorted by hand", [x.where for x in FNS if x.name in ("sort", "merge", "from_right", "thin", "keep", "once_each", "copy") and x.crate in ("sorting", "writer_order")])
    show("arenas of indices: a tree as a heap of 32-byte cells", [x.where for x in FNS if re.search(r"2 \* (top|x|index|node)\b", x.body)])
    show("arrays whose size is a room's upper limit", [f"{x.where}: {m}" for x in FNS if x.crate not in EXPORTS for m in re.findall(r"\[0\w+; [A-Z_0-9]+\]", x.body) if not re.search(r"; (8|20|32|64)\]", m)])


def point7():
    print("7. switches on which step to run")
    show("a bool or own enum that says which step runs", [f"{x.where} ({n}: {t})" for x in FNS for n, t in x.params if n in ("paths", "layers", "form", "test", "opened") and t in ("bool", "Test")])
    show("closures, impl Fn, dyn there are", [f[len(CR) + 1:] for c, f, t in SRC for m in re.finditer(r"\|\w*\| |impl Fn|dyn ", blank(t))])
    chains = []
    for x in FNS:
        n = len(re.findall(r"(?m)^    if \w+ == [A-Z_]+ \{\n        return", x.body))
        if n >= 3:
            chains.append(f"{x.where} ({n} tests in a row: match)")
    show("chains of ifs on one value (match)", chains)
    show("`if x { return true; } false` and its like", [x.where for x in FNS if re.search(r"if [^{]+ \{\s*return (true|false);\s*\}\s*(true|false)\s*\}$", x.body)])


def point8():
    print("8. proofs")
    tot = Counter()
    rows = []
    for c in sorted(os.listdir(CR)):
        n = Counter()
        for dirpath, _, names in os.walk(f"{CR}/{c}/proofs"):
            for f in names:
                k = len(open(f"{dirpath}/{f}").read().splitlines())
                key = f if f in ("Answers.antt", "Invariants.antt", "Proof.antt") else "lemmas"
                n[key] += k
                n[key + " files"] += 1
                tot[key] += k
                tot[key + " files"] += 1
        rows.append((n["Answers.antt"], c, n))
    print("      " + ", ".join(f"{k}: {v}" for k, v in sorted(tot.items())))
    if LIST:
        for _, c, n in sorted(rows, reverse=True):
            print(f"          {c}: " + ", ".join(f"{k} {v}" for k, v in sorted(n.items())))
    lines = Counter()
    where = defaultdict(set)
    for dirpath, _, names in os.walk(CR):
        if "/out/" not in dirpath and "/proofs" in dirpath and "Answers.antt" in names:
            for d in re.split(r"\n(?=pub )", open(f"{dirpath}/Answers.antt").read()):
                b = re.sub(r"^pub [^\n]*\n", "", d)
                m = re.search(r"(?m)^\S+ (?:\w+ )?c =(.*)", b, re.S)
                if m:
                    t = " ".join(m[1].split())
                    if len(t) > 40:
                        lines[t] += 1
                        where[t].add(dirpath)
    rep = [f"x{n} {t[:110]}" for t, n in lines.most_common() if n >= 3]
    show("answers that stand in three places or more, word for word", rep)
    dec = 0
    for dirpath, _, names in os.walk(CR):
        if "/out/" not in dirpath and "/proofs" in dirpath and "Invariants.antt" in names:
            dec += len(re.findall(r"(?m)^decreases-loop|^\w+-decreases-loop|decreases-\S*loop", open(f"{dirpath}/Invariants.antt").read()) ) // 2
    print(f"{dec:4}  measures of loops (a `for` has none)")


def inner():
    """Public functions that README and docs/ name (they are no inner functions), and those that they don't name and another library crate calls."""
    text = open("README.md").read() + "".join(open(f"docs/{d}").read() for d in os.listdir("docs") if d.endswith(".md") and d not in ("PORT.md", "DESIGN-PASS.md"))
    text += "".join(open(f"docs/changes/{d}").read() for d in os.listdir("docs/changes")) if os.path.isdir("docs/changes") else ""
    words = set(re.findall(r"[\w:]+", " ".join(re.findall(r"`([^`\n]+)`", text))))
    used = defaultdict(set)
    for c, f, t in SRC:
        for m in re.finditer(r"\b(\w+)(?:::\w+)*::(?:\{([^}]*)\}|(\w+))", blank(t)):
            for n in re.findall(r"\w+", m[2] or m[3]):
                used[(m[1], n)].add(c)
    named, free = [], []
    for x in FNS:
        if not x.pub or x.crate in EXPORTS | PROGRAMS | {"kombudeva"}:
            continue
        full = [w for w in words if w == x.name or w.endswith("::" + x.name)]
        by = used[(x.crate, x.name)] - {x.crate} - EXPORTS - PROGRAMS
        (named if full else free).append(x.where + (" called by " + " ".join(sorted(by)) if by else " called by no other crate"))
    show("public functions of libraries that README or docs/ name by a word in backticks", named)
    show("public functions that they don't name: inner where another library crate calls them", free)


for p in WANT:
    globals()["point" + p]()
if "inner" in sys.argv:
    inner()
