#!/usr/bin/env python3
"""Lists the places of docs/DESIGN-PASS.md in the code of a commit: tools/design_places.py [COMMIT] [POINT..].

A place is a line with its file, by the point (1 to 7) that it belongs to; the last line of a point is its count. What a
pattern can't see (a place that it takes for another thing, or one that it misses) the page says beside the counts.
Without COMMIT it is the code as it lies here."""
import collections
import itertools
import os
import re
import subprocess
import sys

os.chdir(os.path.dirname(os.path.dirname(os.path.abspath(__file__))))
HEAD = r'^( *)((?:pub(?:\(crate\))? )?(?:extern "C" )?fn (\w+).*?)'
FUNCTION = re.compile(HEAD + r"^\1\{\n(.*?)^\1\}$", re.M | re.S)
ENUM = r"^ *(?:pub(?:\(crate\))? )?enum (\w+)"
CASE = r"^ +(?:pub(?:\(crate\))? )?\w+: (?:Parsed|ParsedScript|State|LineRead|Verdict),$"
NUMBER = r"^(?:pub(?:\(crate\))? )?const [A-Z_]+: (?:u8|u32|End|Word) = [0-9]{1,2};"
# enums that are neither an Option nor a Result: what they stand for has these cases
KINDS = {"Rule", "Kind", "SheetLine"}


def git(*words):
    """What git prints."""
    return subprocess.run(["git", *words], capture_output=True, text=True, check=True).stdout


def files(commit):
    """The files of the code: path -> text, without comments."""
    if commit:
        names, read = git("ls-tree", "-r", "--name-only", commit, "crates"), lambda n: git("show", f"{commit}:{n}")
    else:
        names, read = git("ls-files", "crates"), lambda n: open(n, encoding="utf-8").read()
    names = re.findall(r"^crates/\w+/src/.*\.rt$", names, re.M)
    return {n: re.sub(r"//.*", "", read(n)) for n in names}


def lines(code, pattern):
    """Each line of the code that fits a pattern."""
    for path, text in code.items():
        for number, line in enumerate(text.split("\n"), 1):
            if re.search(pattern, line):
                yield f"{path}:{number}: {line.strip()}"


def functions(code):
    """Each function: its path, its name, its parameters and its body."""
    for path, text in code.items():
        for m in FUNCTION.finditer(text):
            head = re.search(r"fn \w+(?:<[^(]*>)?\((.*?)\)\s*(?:->|ensures|requires|where|$)", m[2], re.S)
            names = re.findall(r"(\w+)\s*:(?!:)", re.sub(r"<[^<>]*>|\([^()]*\)", "", head[1])) if head else []
            yield path, m[3], names, m[4]


def options(code):
    """Point 1: enums with a case for a refusal, flags and cases beside a value, numbers for kinds or refusals."""
    yield from (l for l in lines(code, ENUM) if re.search(r"enum (\w+)", l)[1] not in KINDS)
    yield from lines(code, r"^ +(?:pub(?:\(crate\))? )?(?:ok|typed|shown|more|on): bool,$")
    yield from (l for l in lines(code, CASE) if "crates/input" not in l and "crates/parts" not in l)
    yield from lines(code, r"^ +other: u8,$")
    # the numbers of the scope, but for how many there may be of a thing
    sizes = r"const (?:MOST_|GIVEN_|PARTS|DEPTH|FIRST: u32 = 1;)"
    yield from (l for l in lines(code, NUMBER) if not re.search(sizes, l))


def twins(code):
    """Point 2: functions of one skeleton (names, types and numbers left out), and types of one name in two crates."""
    shapes, kinds = collections.defaultdict(list), collections.defaultdict(list)
    for path, name, _, body in functions(code):
        shape = re.sub(r"\s+", "", re.sub(r"[A-Za-z_][\w:.]*|\b\d+\b|[&*]", "_", body))
        if len(shape) >= 24:
            shapes[shape].append(f"{path}: {name}")
    for path, text in code.items():
        for m in re.finditer(r"^ *(?:pub(?:\(crate\))? )?(?:enum|struct) (\w+)", text, re.M):
            kinds[m[1]].append(f"{path}: {m[0].strip()}")
    for group in list(shapes.values()) + list(kinds.values()):
        if len(group) > 1:
            yield " = ".join(group)


def loops(code):
    """Point 3: loops over a number."""
    yield from lines(code, r"^ *(?:'\w+: )?(?:while |loop |for \w+ in [^ ]*\.\.)")


def by_hand(code):
    """Point 4: conversions, comparisons, copies and printing by functions of their own."""
    named = "sheet_number|memory_number|code_number|number|answer|rank|earlier|lower|line_by|line_of_one|same_words|"
    named += "put_digits|put_number|put_cell|put_sets|copy|slide|store"
    for line in lines(code, rf"\bfn (?:{named})\("):
        if not re.match(r"crates/(?:text/src/lib|sheet/src/lib|parts/src/lib)\.rt", line):
            yield line


def together(code):
    """Point 5: three or more parameters that four or more functions have, and a fact that three contracts ask for."""
    having = collections.defaultdict(set)
    for path, name, names, _ in functions(code):
        for size in range(3, 8):
            for some in itertools.combinations(names, size):
                having[some].add(f"{path.split('/')[1]}::{name}")
    found = [(names, users) for names, users in having.items() if len(users) >= 4]
    for names, users in sorted(found):
        if not any(set(names) < set(more) and users <= others for more, others in found):
            yield f"({', '.join(names)}): {', '.join(sorted(users))}"
    asked = collections.Counter(re.findall(r"^ *requires (\{.*\})$", "\n".join(code.values()), re.M))
    yield from (f"requires {fact}: {count} contracts" for fact, count in asked.items() if count >= 3)


def buffers(code):
    """Point 6: a count beside what it counts, and arrays side by side."""
    yield from lines(code, r"^ +(?:pub(?:\(crate\))? )?count: (?:usize|u32),$")
    yield from lines(code, r"^ +(?:pub(?:\(crate\))? )?(?:ends|kept|words|answers|steps): \[u\w+; \w+\],$")


def switches(code):
    """Point 7: a parameter that says which step to run."""
    yield from lines(code, r"\bfn \w+\(.*\b(?:labels|first|plus|wholly|pair|test): bool\b|^ {4}(?:plus|first): bool,$")
    yield from lines(code, r"\bfn \w+\(.*\bletter: u8\b")


POINTS = [options, twins, loops, by_hand, together, buffers, switches]

words = sys.argv[1:]
commit = words.pop(0) if words and not re.fullmatch("[1-7]", words[0]) else ""
code = files(commit)
for place, point in enumerate(POINTS, 1):
    if words and str(place) not in words:
        continue
    found = list(point(code))
    print(f"{place}. {point.__doc__.partition(': ')[2]}")
    for line in found:
        print("   ", line)
    print(f"    {len(found)} places")
