#!/usr/bin/env python3
"""Brings the repository's own names to the spelling of today's Rattle, and turns the names in pages in step.

usage: respell.py [--check] [--old COMMIT] [ROOT]            right after port.py, once: definitions, fields and variables, then lemmas
       respell.py --lemmas [--check] [--old COMMIT] [ROOT]   lemmas alone, where the rest is turned already
       respell.py --docs [--check] [--old COMMIT] [ROOT]     README.md, docs/ and host/*.md alone, at any later time: it may be run again

In crates/ (.antt, .rt, .edit) it turns each lower-camel word to snake case ('fileSize' to 'file_size'); a word whose new spelling stands in the same
file already is told ('meets:'). Crate sha1 becomes sha_1, since the kit has a library of that name.
Then the words of each own name are joined by '_' ('held-stays-held' to 'held_stays_held'), lemmas' and those of fields, constructors and variables; a
name that would meet another one there gets '_lem' behind it ('rules-kept' beside the definition 'rules_kept'). Names of libraries and those that
Rattle makes of a function's code keep their dashes.
In README.md, docs/ and host/*.md it turns, within backticks, every name that crates/ declared in COMMIT under another spelling than now, also those that port.py
turned. COMMIT is the newest ancestor whose crates/ have paths of the older Rattle.
"""
import collections, difflib, io, os, re, subprocess, sys, tarfile, tempfile

CAMEL = re.compile(r"(?<![\w'«])([a-zα-ωµ][a-z0-9₀-₉]*(?:[A-Z][a-z0-9₀-₉]*)+)(?![\w«])")
HUMP = re.compile(r"(?<=[a-z0-9₀-₉])(?=[A-Z])|(?<=[A-Z])(?=[A-Z][a-z])")
# Lemmas that would have their function's name: they get '_lem' in the files that declare or import them.
LEMMAS = "no_items path_names read_number record_of root_in running_more too_large".split()
# Own names that port.py took for std's: each is one of a family NAME-N whose other members keep the dash, and docs/PROMISES.md cites NAME-N.
NUMBERED = "take_0 block_0 block_3 block_4 block_6 size_32 at_7 at_8 a_5 a_6 a_7 is_32".split()
# Private definitions with a dash, which is for lemmas: file below crates/, names.
DASHED = {
    "knowledge/specs/ByHand.antt": ["first-pair-place", "first-pair"],
    "promises/specs/NumbersGiven.antt": ["first-place"],
    "stream/specs/AnswerLaws.antt": ["is-message"],
    "stream/specs/ExactlyLaws.antt": ["is-message"],
}
# The same in one file: constructors whose fellows keep the dash, as host/page wants them.
FAMILY = {"contracts/specs/Outcomes.antt": ["by_next", "by_name"]}
OWN = {"getD": "get_or"}
# a crate may not have a kit library's name
CRATE = ("sha1", "sha_1")


def snake(word):
    return OWN.get(word) or HUMP.sub("_", word).lower()


def files(root, top, ends):
    for folder, dirs, names in os.walk(os.path.join(root, top)):
        dirs[:] = sorted(d for d in dirs if d not in ("out", "target", ".git"))
        for n in sorted(names):
            if n.endswith(ends):
                yield os.path.join(folder, n)


def read(p):
    with open(p, encoding="utf-8", errors="surrogateescape", newline="") as f:
        return f.read()


def write(p, t):
    with open(p, "w", encoding="utf-8", errors="surrogateescape", newline="") as f:
        f.write(t)


def word(n):
    return re.compile(r"(?<![\w'.-])" + re.escape(n) + r"(?![\w'-])")


def turn_crates(root, check):
    inside = list(files(root, "crates", (".antt", ".rt", ".edit")))
    texts = {p: read(p) for p in inside}
    first = dict(texts)
    for n in LEMMAS:
        for p, t in texts.items():
            brought = re.search(r"(?m)^(?:pub |unfoldable )*use \S*\.\{[^}]*(?<![\w'-])" + n + r"(?![\w'-])[^}]*\}", t)
            if p.endswith(".antt") and (re.search(r"(?m)^ *(?:pub )?" + n + r" :", t) or brought):
                texts[p] = word(n).sub(n + "_lem", texts[p])
    for n in NUMBERED:
        at = re.compile(r"(?<![\w'-])" + n + r"(?![\w'-])")
        for p, t in texts.items():
            if p.endswith(".antt") and not re.search(r"(?m)^use Rattle\.std\.\S*\.\{[^}]*(?<![\w'-])" + n + r"(?![\w'-])", t):
                texts[p] = at.sub(n.replace("_", "-"), texts[p])
    for name, ns in [*DASHED.items(), *FAMILY.items()]:
        p = os.path.join(root, "crates", name)
        for n in ns:
            if p in texts:
                texts[p] = word(n).sub(n.replace("-", "_") if "-" in n else n.replace("_", "-"), texts[p])
    words = collections.defaultdict(set)
    for p, t in texts.items():
        for m in CAMEL.finditer(t):
            words[m[1]].add(p)
    new = {w: snake(w) for w in words}
    for w in sorted(words):
        # a function's name beside a definition's is no clash (two name spaces), nor is a field's in 'record { .. }'
        pat = re.compile(r"(?<![\w'.-])" + re.escape(new[w]) + r"(?![\w'-])")
        met = [p for p in words[w] if p.endswith(".antt") and any(pat.search(re.sub(r"\b(?:proofs|specs)\.\S+|(?<!\S)--\s.*", "", l)) for l in texts[p].split("\n"))]
        if met and w not in OWN:
            print(f"meets: {w} -> {new[w]} in {len(met)} of {len(words[w])} files, as {os.path.relpath(met[0], root)}")
    back = collections.defaultdict(list)
    for w, n in new.items():
        back[n].append(w)
    for n, ws in back.items():
        if len(ws) > 1:
            print(f"meets: {' and '.join(sorted(ws))} -> {n}")
    old, name = CRATE
    changed = 0
    for p, t in texts.items():
        t = CAMEL.sub(lambda m: new.get(m[1], m[1]), t)
        t = re.sub(r"\bRattle([.·])" + old + r"\b", r"Rattle\g<1>" + name, t)
        if p.endswith((".rt", ".edit")):
            t = re.sub(r"(?<![\w:.])" + old + r"::", name + "::", t)
        if t != first[p]:
            changed += 1
            if not check:
                write(p, t)
    if not check and os.path.isdir(os.path.join(root, "crates", old)):
        os.rename(os.path.join(root, "crates", old), os.path.join(root, "crates", name))
        p = os.path.join(root, "crates.txt")
        lines = [l.split("#", 1) for l in read(p).splitlines(True)]
        write(p, "".join("#".join([re.sub(r"(?<![\w-])" + old + r"(?![\w-])", name, l[0]), *l[1:]]) for l in lines))
    print(f"respell: {len(new)} words, {changed} files of crates/")


DECLARED = re.compile(r"(?m)^ *(?:(?:abbrev|unfoldable|opaque|pub|private) +)*(?:(?:data|record) +)?([^\s:(){}\[\],;.=\"]+)(?: +[({][^=\n]*?)? +:(?: |$)")


def declared(text):
    lines = [l for l in text.split("\n") if not l.lstrip().startswith(("--", "use ", "pub use", "mod ", "pub mod"))]
    return [n for n in DECLARED.findall("\n".join(lines)) if n not in ("let", "in", "where", "unfolding", "module", "λ", "→", "×")]


def plain(name):
    return re.sub(r"_lem$", "", snake(name).replace("-", "_").replace("′", "'"))


def git(root, *words, raw=False):
    r = subprocess.run(["git", *words], cwd=root, capture_output=True, check=True)
    return r.stdout if raw else r.stdout.decode()


def before(root):
    for commit in git(root, "rev-list", "--first-parent", "-200", "HEAD").split():
        if subprocess.run(["git", "grep", "-q", "Rattle·", commit, "--", "crates/*.antt"], cwd=root, stderr=subprocess.DEVNULL).returncode == 0:
            return commit
    sys.exit("respell: no ancestor has crates/ of the older Rattle: give --old COMMIT")


def renamed(root, commit):
    """The names that crates/ declare now and in the commit under two spellings, old to new."""
    found, kept = collections.defaultdict(collections.Counter), set()
    with tempfile.TemporaryDirectory() as room:
        with tarfile.open(fileobj=io.BytesIO(git(root, "archive", commit, "crates", raw=True))) as it:
            it.extractall(room)
        for p in files(room, "crates", (".antt",)):
            path = re.sub(r"^crates/" + CRATE[0] + "/", f"crates/{CRATE[1]}/", os.path.relpath(p, room))
            if not os.path.isfile(os.path.join(root, path)):
                # (law files that were moved since)
                path = path.replace("/specs/", "/proofs/", 1)
            if path.endswith("/Proof.antt") or not os.path.isfile(os.path.join(root, path)):
                continue
            a, b = declared(read(p)), declared(read(os.path.join(root, path)))
            match = difflib.SequenceMatcher(None, [plain(x) for x in a], [plain(x) for x in b], autojunk=False)
            for i, j, n in match.get_matching_blocks():
                for x, y in zip(a[i : i + n], b[j : j + n]):
                    if x != y:
                        found[x][y] += 1
                    else:
                        kept.add(x)
    for x, ys in found.items():
        if len(ys) > 1 or x in kept:
            print(f"look: {x} is now {' or '.join([*ys, *([x] if x in kept else [])])}: docs/ get {ys.most_common(1)[0][0]}")
    return {x: ys.most_common(1)[0][0] for x, ys in found.items()}


def turn_docs(root, check, commit):
    new = renamed(root, commit)
    token = re.compile(r"(?<![\w'/.-])([^\W\d][\w'′₀-₉]*(?:-[\w'′₀-₉]+)*)(?![\w'-])")
    old, name = CRATE
    changed = 0
    pages = [os.path.join(root, "README.md"), *files(root, "docs", (".md",)), *files(root, "host", (".md",))]
    for p in pages:
        if os.path.isfile(p):
            t = read(p)

            def span(m):
                s = re.sub(r"(?<![\w/.])((?:crates/)?)" + old + r"(?=/(?:specs|src|proofs|must-fail)\b)", r"\g<1>" + name, m[2])
                return m[1] + token.sub(lambda w: new.get(w[1], w[1]), s) + m[1]

            t2 = re.sub(r"(`+)([^`\n]+)\1", span, t)
            if t2 != t:
                changed += 1
                if not check:
                    write(p, t2)
    print(f"respell: {len(new)} names under two spellings since {commit[:8]}, {changed} pages")


# ---- lemmas

# A name of antt, as it stands among blanks and brackets; its parts are joined by dots.
CHAIN = re.compile(r"[^\s(){}\[\],;|\"`«»]+")
DASHES = re.compile(r"[^\W\d_][\w'₀-₉]*(?:-[\w'₀-₉]+)+")
WITH_DASH = re.compile(r"(?<![\w.'-])" + DASHES.pattern + r"(?![\w'-])")
USE = re.compile(r"(?ms)^[ \t]*(?:pub |ghost )*use ([^\s{;]+?)(?:\.\{([^}]*)\})?(?: as (\S+?))?;?[ \t]*$")
# Names that stand in a signature, a `let`, a binder, a clause's arguments.
BOUND = [
    re.compile(r"(?m)^( *)((?:(?:abbrev|unfoldable|opaque|pub|private) +)*)(?:(?:data|record) +)?([^\s:(){}\[\],;.=\"]+)(?: +[({][^=\n]*?)? +:(?: |$)"),
    re.compile(r"\blet ([^\s:=(){},]+) (?::|=)"),
    re.compile(r"[({]((?:[^\s:(){}\[\],;.=|]+ )+):(?: |$)"),
    re.compile(r"(?m)^ *[^\s(){}=]+((?: [^\s(){}=]+)+) =(?: |$)"),
]
FUNCTION = ("Answers.antt", "Invariants.antt")
# What Rattle makes of a function's code, below these.
MADE = ("c", "l", "goal", "tie")
# A field that Rattle makes and that has an own name's spelling: file below crates/, name.
MADE_FIELD = ("header/proofs/place_of/Answers.antt", "u-is")
LOGIC = ("mathlib", "native", "Prim", "lib", "borrow", "denote", "contract", "base")


class Page:
    """A file of antt: what it imports from libraries, which goals it answers, and its own names that have a dash."""

    def __init__(self, root, path):
        self.root, self.path, self.text = root, path, read(path)
        self.is_function = os.path.basename(path) in FUNCTION
        self.library, self.aliases, self.imported, self.modules = set(), set(), set(), set()
        for path, names, alias in USE.findall(self.text):
            listed = {w.strip() for n in names.split(",") for w in n.split(" as ") if w.strip()}
            if self.is_own(path):
                self.imported |= listed
                self.modules |= {alias} if alias and not names else set()
            else:
                self.library |= listed
                self.aliases |= {alias} if alias else set()
        self.goals = set(re.findall(r"(?<![\w.])goal\.([^\s(){}\[\],;.|]+)", self.text)) if self.is_function else set()
        self.goals |= {n for path, names, _ in USE.findall(self.text) if path.endswith(".Goals") for n in names.replace(" ", "").split(",")}
        code = "\n".join(parted(l)[0] for l in USE.sub("", self.text).split("\n"))
        # names with a dash that are bound here: those that only this file can name, and the others
        self.inner, self.outer = set(), set()
        depth = None
        for line in code.split("\n"):
            found = BOUND[0].match(line)
            indent = len(line) - len(line.lstrip()) if line.strip() else None
            if depth is not None and indent is not None and indent <= depth:
                depth = None
            if found:
                marks, name = found[2], found[3]
                wide = indent == 0 or "pub" in marks or depth is not None
                (self.outer if wide else self.inner).add(name)
            if re.match(r" *(?:(?:abbrev|unfoldable|pub|private) +)*(?:data|record) +[^{]", line) and indent is not None and depth is None:
                depth = indent
        for pattern in BOUND[1:]:
            self.inner |= {w for m in pattern.findall(code) for w in m.split()}
        self.inner -= self.outer
        keep = lambda names: {n for n in names if DASHES.fullmatch(n)} - self.library - self.goals
        self.inner, self.outer = keep(self.inner), keep(self.outer)
        self.made = MADE_FIELD[1] if self.path.endswith("/crates/" + MADE_FIELD[0]) else None
        self.dotted, self.plain = set(), set()

    def is_own(self, path):
        found = re.match(r"Rattle[.·]([a-z0-9_]+)", path)
        return bool(found) and os.path.isdir(os.path.join(self.root, "crates", found[1]))

    def turned(self, to):
        """The text with `to(name)` for each name with a dash that is not a library's, nor made by Rattle; `to` may say None."""

        def chain(m):
            parts = m[0].split(".")
            head = parts[0]
            library = head in self.aliases or head in LOGIC or (head == "Rattle" and not self.is_own(m[0]))
            for i, part in enumerate(parts):
                if not DASHES.fullmatch(part) or (library and i) or (not i and part in self.library | self.goals):
                    continue
                if self.is_function and i and (i == 1 and head in MADE or self.made == part):
                    continue
                (self.dotted if i else self.plain).add(part)
                parts[i] = to(part) or part
            return ".".join(parts)

        def body(text):
            lines = []
            for line in text.split("\n"):
                code, comment = parted(line)
                lines.append(CHAIN.sub(chain, code) + quoted(comment, to))
            return "\n".join(lines)

        out, at = [], 0
        for m in USE.finditer(self.text):
            out.append(body(self.text[at : m.start()]))
            out.append(WITH_DASH.sub(lambda n: n[0] if n[0] in self.goals else to(n[0]) or n[0], m[0]) if self.is_own(m[1]) else m[0])
            at = m.end()
        return "".join([*out, body(self.text[at:])])


def parted(line):
    """A line's code and its comment."""
    m = re.search(r"(^|\s)--(\s|$)", line)
    return (line[: m.start()], line[m.start() :]) if m else (line, "")


def quoted(text, to):
    """A text with the names within its backticks turned."""
    return re.sub(r"`([^`]+)`", lambda m: "`" + WITH_DASH.sub(lambda n: to(n[0]) or n[0], m[1]) + "`", text)


def turn_lemmas(root, check):
    pages = [Page(root, p) for p in files(root, "crates", (".antt",)) if not p.endswith("/Proof.antt")]
    bound = {n for page in pages for n in page.inner | page.outer} | {n for page in pages for n in page.modules if DASHES.fullmatch(n)}
    for page in pages:
        page.turned(lambda n: None)
        page.words = set(re.findall(r"[^\W\d][\w'₀-₉]*", WITH_DASH.sub("", USE.sub(lambda m: (m[2] or "") + " " + (m[3] or ""), page.text))))
    # A name is one file's own affair where that file binds it, and it is neither imported nor reached by a dot anywhere.
    wide = {n for page in pages for n in page.outer | page.imported | page.dotted}
    wide |= {n for page in pages for n in page.plain - page.inner}
    meets = collections.defaultdict(list)
    for page in pages:
        for n in (page.plain | page.dotted | page.imported) & bound:
            if n.replace("-", "_") in page.words and n not in page.modules:
                meets[n].append(page)
    for n in sorted(meets):
        print(f"meets: {n}, {'everywhere' if n in wide else 'there'} {n.replace('-', '_')}_lem: {', '.join(os.path.relpath(p.path, root) for p in meets[n][:3])}")
    lost = sorted({n for page in pages for n in page.plain | page.dotted} - bound)
    if lost:
        print("left as they are, since no file binds them:", *lost)

    def new(n, page):
        if n not in bound:
            return None
        return n.replace("-", "_") + ("_lem" if n in meets and (n in wide or page in meets[n]) else "")

    changed = 0
    for page in pages:
        text = page.turned(lambda n: new(n, page))
        if text != page.text:
            changed += 1
            if not check:
                write(page.path, text)
    for p in files(root, "crates", (".edit",)):
        text = read(p)
        turned = "\n".join(
            quoted(l, lambda n: new(n, None)) if re.match(r"#|first: |twin: ", l) and not re.match(r"# refused: ", l)
            else re.sub(r"(?<![\w'-])" + DASHES.pattern + r"(?![\w'-])", lambda m: (None if re.search(r" fn \S+ \S*$", l[: m.start()] ) else new(m[0], None)) or m[0], l)
            if not l.startswith(("# edit: ", "# with: ", "edit: "))
            else l
            for l in text.split("\n")
        )
        if turned != text:
            changed += 1
            if not check:
                write(p, turned)
    print(f"respell: {len(bound)} names with a dash, {len(meets)} of them meet another name, {changed} files of crates/")


def main(argv):
    check, docs, lemmas, commit, rest = False, False, False, None, []
    while argv:
        a = argv.pop(0)
        if a == "--check":
            check = True
        elif a == "--docs":
            docs = True
        elif a == "--lemmas":
            lemmas = True
        elif a == "--old":
            commit = argv.pop(0)
        else:
            rest.append(a)
    root = rest[0] if rest else "."
    if lemmas:
        turn_lemmas(root, check)
    elif not docs and os.path.isdir(os.path.join(root, "crates", CRATE[1])):
        sys.exit(f"respell: crates/{CRATE[1]} is there, so crates/ are turned already (a second time would take new names for lemmas): --docs turns docs/ alone")
    elif not docs:
        turn_crates(root, check)
        turn_lemmas(root, check)
    turn_docs(root, check, commit or before(root))


if __name__ == "__main__":
    main(sys.argv[1:])
