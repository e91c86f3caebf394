#!/usr/bin/env python3
"""Spells the definitions and lemmas of specs/ and proofs/ as today's Rattle does.

    tools/spell_names.py           after port.py, once, at the top of the repository
    tools/spell_names.py --table   print each old name with its new one, and change nothing

Words are in snake case: `openOf` is `open_of`. In the name of a lemma a dash joins two names of definitions, as in
`member-single_self`; any other dash is an underscore. A type keeps its capitals, and what is brought from a library
keeps its name. Names that would fall together are listed, and nothing is written then. The pages, the tests' scripts
and the must-fail edits follow.
"""
import glob, os, re, sys

ROOT = os.path.dirname(os.path.dirname(os.path.abspath(__file__)))
TOKEN = re.compile(r"[^\s(){};,.@\"«»\[\]`:]+")
DECLARED = re.compile(
    r"^ *((?:(?:pub|abbrev|unfoldable|pattern|axiom) +)*)([^\s(){}:◌]+(?: [^\s(){}:◌]+)*)(?: \{[^{}]*\})? :(?: |$)"
)
MARKS = {"use", "module", "record", "data", "let", "where", "in", "infix", "infixl", "infixr", "mod", "open"}
# words that are no name of a definition in the name of a lemma, although some definition has that name, too
PLAIN = set(
    """a all alone an and any at back below beyond both by case cases clear code done each either end ends first fits
    fold for from given has have head here holds if in inside is it join keep keeps kept known last least left less
    lets low made match meet meets more most names next no none not of off on once one only or other out over own part
    parts past place placed read reads rest right room row rows same second seen self set sets share single size some
    start stop stops takes text texts that the there to top turn two under up use value values when where whole with
    within word words""".split()
)
# functions whose names had their spelling from port.py
FUNCTIONS = set("is_type is_yes row_of is_some form_of types_in same_words".split())
# names that port.py spelled anew in specs/, proofs/ and src/, but not in the pages, the tests and the edits
PORTED = """
    a-turn add-ok after-first after-more after-one after-seq after-then again-spec all-in all-more all-none
    all-placed all-whole and-then andThen any-at any-here anyFrom applied-by as-long as-many at-first at-last
    at-left at-none at-pair at-right at-row at-second at-side below-all below-at below-end below-in below-parts
    below-split bind-ok bit-inj bit-is block-at both-cond both-hold both-left both-right both-true branch-same
    by-kind by-part by-parts by-place by-rows by-runs by-zero byte-at case-at cell-agree cell-holds cell-in
    cell-other cellOf cells-at cells-ext chooses-none chosen-is clear-spec closed-in code-of copy-done copy-spec
    count-spec cut-spec cutOf decimal-step digit-low done-at drop-more each-more each-on each-same earlier-more
    either-left end-none endOf ends-there enters-on entry-at entry-of entry-past entry-spec every-more
    every-true fields-open fill-end filled-more filled-next filled-none find-spec first-ends first-holds
    first-of first-spec first-word firstOf fits-in fits-kept formOf found-at found-first found-name found-none
    found-type from-all from-at from-next from-on from-one from-past front-fits front-length given-is givenOf
    gives-part goes-branch goes-first goes-left goes-on goes-over goes-same got-same groupOf groupsOf has-no
    has-part hasTy headOf held-after held-all holds-kept holds-texts in-all in-b in-c in-left in-pair in-right
    in-table is-agree is-err is-none is-stuck is-sum is-whole isOf isSome isType isYes join-is join-kept
    join-one joinOf joined-length joined-words kept-at kept-by kept-same label-is labelOf labels-in last-as
    last-more last-one last-stored lastOf least-kept least-more left-at left-by left-end left-in left-is
    left-other left-over left-step left-there length-cut length-fields length-from length-more length-push
    length-types line-before line-first line-other lineAt lineOf lines-end lines-more lines-start lines-then
    linesFrom linesOf listed-in load-here load-past load-spec loadOf low-count lower-spec mask-at mask-size
    mayRead mayWrite member-union memory-kept mostOf named-by next-one no-bound no-code no-end no-label no-less
    no-longer no-member no-more no-node no-operand no-other no-start noLabel none-before none-below none-between
    none-first none-kept none-left none-of none-yet not-done not-none not-so nth-past number-at number-digits
    number-is number-past numberIn numberOf of-none of-one of-types on-word onStack one-answer one-bit one-end
    one-label one-less one-more one-none one-of one-reader one-value ones-odd only-none only-part opOf open-spec
    openAt opens-at orElse own-at pair-spec pairOf paired-same part-in part-none part-type partOf pass-kept
    passed-none passed-over past-all past-bound place-at place-none place-other place-same placed-first pop-next
    popOf push-spec put-all put-same quiet-step rankOf read-as read-back read-no read-none read-past read-some
    read-spec read-whole readOf reads-in reads-more reads-on rest-all rest-below rest-more rest-over right-is
    right-there rising-none room-after round-is row-on row-read row-within rowLine rowOf run-ends run-of runOf
    s-pair s-seq s-var same-answer same-end same-int same-kind same-length same-number same-parts same-place
    same-refl same-seen same-spec same-start same-view same-word sameTy sameWords second-holds seen-same
    seen-size seen-true set-at set-past set-spec set-there sets-more shl-one side-left side-right skip-at
    skip-below some-of some-with stackOf start-fine start-is startOf step-end step-gives step-spec steps-front
    steps-on stops-at store-spec storeOf stored-more stored-past sum-done sum-past table-done table-more tableOf
    tabled-start take-last take-min take-step text-at textOf then-next too-long too-many top-kept topOf turn-on
    turn-spec turnOf two-none two-operands two-runs tyOf typeOf typesAt typesIn upTo value-cell value-passes
    value-there valueOf view-in view-known viewOf walk-end walk-ends walk-none walk-pair whole-in wholeOf
    width-spec word-same words-append words-are words-back words-left words-long words-more words-right
    words-size wordsOf writesOf written-none writtenOf zero-of zero-turn
""".split()
# the fields of records
FIELDS = set()
# names that would fall together, or that are types
GIVEN = {"when-script": "WhenScript"}


def words(name):
    """A name in snake case, without its dashes."""
    name = re.sub(r"(?<=[a-z0-9])([A-Z])(?![A-Z])", r"_\1", name)
    return "-".join(part if re.fullmatch(r"[A-Z]\w*[a-z]\w*", part) else part.lower() for part in name.split("-"))


def is_type(name):
    return re.match(r"[A-Z][a-z]", name) and "-" not in name


def antt():
    found = []
    for crate in sorted(glob.glob(f"{ROOT}/crates/*")):
        found += sorted(glob.glob(f"{crate}/specs/**/*.antt", recursive=True))
        found += sorted(glob.glob(f"{crate}/proofs/*.antt"))
    return found


def proofs():
    return sorted(p for p in glob.glob(f"{ROOT}/crates/*/proofs/**/*.antt", recursive=True) if p not in set(antt()))


def read(path):
    with open(path, encoding="utf-8") as f:
        return f.read()


def declared(path):
    """The names that a file declares, with whether each is a definition."""
    found, of_record = {}, ""
    for line in read(path).split("\n"):
        if re.match(r" *--", line):
            continue
        if re.match(r"(pub )?(record|data) ", line):
            of_record = line
        elif line and not line.startswith(" "):
            of_record = ""
        m = DECLARED.match(line)
        if not m:
            continue
        names = m[2].split(" ")
        if names[0] in MARKS or (len(names) > 1 and not of_record) or len(line) - len(line.lstrip()) > 4:
            continue
        for name in names:
            if " record " in f" {of_record}":
                FIELDS.add(name)
            found[name] = bool(of_record) or "/specs/" in path or "abbrev" in m[1] or "unfoldable" in m[1]
    return found


def brought(text):
    """What a file brings from a library that is not of this repository."""
    found = set()
    crates = {os.path.basename(c) for c in glob.glob(f"{ROOT}/crates/*")}
    for m in re.finditer(r"^\s*(?:pub )?(?:ghost )?use ([^\s{]+?)\.\{([^}]*)\}", text, re.M):
        steps = m[1].split(".")
        if not (steps[0] == "Rattle" and len(steps) > 1 and steps[1] in crates):
            found |= {name.split(" as ")[-1].strip() for name in m[2].split(",")}
    return found


def table():
    definitions, lemmas = set(), set()
    for path in antt():
        for name, is_definition in declared(path).items():
            (definitions if is_definition else lemmas).add(name)
    spelled = {words(n).replace("-", "_") for n in definitions if not is_type(n)} | {n for n in definitions if is_type(n)}
    named = {n for n in spelled if n not in PLAIN and len(n) > 2}
    named |= set("length append take drop map set get_or replicate filter zero suc add mul min max paste".split())

    def of_lemma(name):
        parts = words(name).split("-")
        out = parts[0]
        for i in range(1, len(parts)):
            before = any("_".join(parts[a:i]) in named for a in range(i))
            behind = any("_".join(parts[i:b]) in named for b in range(i + 1, len(parts) + 1))
            out += ("-" if before and behind else "_") + parts[i]
        return out

    new = {}
    for name in sorted(definitions | lemmas):
        if not is_type(name) and not re.fullmatch(r"[A-Z]\W*", name):
            new[name] = words(name).replace("-", "_") if name in definitions else of_lemma(name)
    # a lemma that would have its function's name ends in _lem
    functions = {new[n] for n in new if n in definitions and (re.search("[a-z][A-Z]", n) or n in FUNCTIONS)}
    for name in new:
        if new[name] in functions and not re.search("[a-z][A-Z]", name) and name not in FUNCTIONS:
            new[name] += "_lem"
    new |= GIVEN
    return {a: b for a, b in new.items() if a != b}, definitions


def turned(text, names, kept):
    """A text with its names turned, but those in kept. Behind a dot a name in snake case may be a function's."""

    def name(m):
        if m[0] not in names or m[0] in kept:
            return m[0]
        if text[m.start() - 1 : m.start()] == "." and m[0] not in FIELDS and names[m[0]].endswith("_lem"):
            return words(m[0]).replace("-", "_")
        return names[m[0]]

    return TOKEN.sub(name, text)


def code_and_comment(line, mark):
    i = line.find(mark)
    return (line, "") if i < 0 or (i and line[i - 1] not in " (") else (line[:i], line[i:])


def of_comment(text, names, kept):
    """In a comment a name turns within a code span, and anywhere if it has a capital inside."""
    text = re.sub(r"`[^`\n]*`", lambda m: turned(m[0], names, kept), text)
    return TOKEN.sub(lambda m: names[m[0]] if re.search(r"[a-z][A-Z]", m[0]) and m[0] in names else m[0], text)


def of_code(text, names, kept, mark):
    out = []
    for line in text.split("\n"):
        code, comment = code_and_comment(line, mark)
        out.append(turned(code, names, kept) + of_comment(comment, names, kept))
    return "\n".join(out)


def main():
    names, definitions = table()
    if sys.argv[1:] == ["--table"]:
        for a in sorted(names):
            print(f"{'d' if a in definitions else 'l'} {a} {names[a]}")
        return 0
    faults, out = [], {}
    for path in antt() + proofs():
        text = read(path)
        kept = brought(text)
        own = dict(names)
        if path.endswith("/Proof.antt"):
            for name in declared(path):
                of_goal = re.search(rf"^\s*(abbrev )?{re.escape(name)} :\s+tie\.", text, re.M)
                if name not in own and not is_type(name) and "-" in name and not of_goal:
                    own[name] = words(name).replace("-", "_")
        code = "\n".join(code_and_comment(line, "--")[0] for line in text.split("\n"))
        met = {}
        code = re.sub(r"\bRattle\.\w+", "Rattle", code)
        for token in {m[0] for m in TOKEN.finditer(code) if code[m.start() - 1 : m.start()] != "."}:
            met.setdefault(own.get(token, token) if token not in kept else token, set()).add(token)
        faults += [f"{path}: {' and '.join(sorted(old))} would both be {new}" for new, old in met.items() if len(old) > 1]
        out[path] = of_code(text, own, kept, "--")
    # what may be the name of a function in the code stays there
    in_code = {a: b for a, b in names.items() if re.search("[A-Z-]", a)}
    for path in glob.glob(f"{ROOT}/crates/*/src/**/*.rt", recursive=True):
        out[path] = of_code(read(path), in_code, set(), "//")
    around = {name: words(name).replace("-", "_") for name in PORTED} | in_code
    for path in glob.glob(f"{ROOT}/crates/*/must-fail/*.edit"):
        out[path] = "\n".join(
            of_comment(line, around, set()) if line.startswith("# ") else turned(line, around, set())
            for line in read(path).split("\n")
        )
    for path in [f"{ROOT}/tests/promises-test"]:
        out[path] = turned(read(path), around, set())
    for path in glob.glob(f"{ROOT}/*.md") + glob.glob(f"{ROOT}/docs/*.md"):
        if not path.endswith("LANDINGS.md"):
            out[path] = of_comment(read(path), around, set())
    meant = {}
    for a, b in names.items():
        meant.setdefault(b, set()).add(a)
    for path in antt():
        for name in declared(path):
            if name in meant and name not in names:
                faults.append(f"{path}: {name} is declared, and {sorted(meant[name])} would be it, too")
    faults += [f"{sorted(a)} would all be {b}" for b, a in meant.items() if len(a) > 1]
    if faults:
        print("\n".join(faults))
        return 1
    for path, text in out.items():
        if text != read(path):
            with open(path, "w", encoding="utf-8") as f:
                f.write(text)
    return 0


sys.exit(main())
