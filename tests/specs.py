"""What the files of specs/ and src/ declare and bring from each other, for tests/promises and tests/documents.

It is read off their text, with comments, quoted texts and names as the toolchain has them. A form that this reading
doesn't follow could hide what a name means, so that `unread` says where there is one.
"""
import functools, os, re

ROOT = os.path.dirname(os.path.dirname(os.path.abspath(__file__)))
QUOTED = r'"(?:\\.|[^"\\])*"'
NAME = r'[^\s(){}.,;@"]+'
# where an operand stands in the name of an operator
HOLE = "◌"
# in antt a comment begins where a name could begin
COMMENT = re.compile(rf'({QUOTED})|--(?<![^\s(){{}}.,;@"]--)[^\n]*', re.S)
WORDS = re.compile(rf"{QUOTED}|({NAME})", re.S)
ANTT = re.compile(rf"(?P<comment>--[^\n]*)|(?P<quoted>{QUOTED})|(?P<word>{NAME})|(?P<blank>\s+)|(?P<mark>.)", re.S)
CHARACTER = r"'(?:\\.[^'\n]*|[^\\'\n])'"
CODE = re.compile(
    rf"(?P<comment>//[^\n]*)|(?P<quoted>b?{QUOTED}|b?{CHARACTER})|(?P<word>\w+)|(?P<blank>\s+)|(?P<mark>.)", re.S
)
# what a function does is not read, but for where it ends
BODY = re.compile(rf"(?P<comment>//[^\n]*)|(?P<quoted>{QUOTED}|{CHARACTER})|(?P<word>[^{{}}\"'/]+)|(?P<mark>.)", re.S)
# what stands before the brace of a clause; a clause may have a name, and a star where it speaks of memory and loans
CLAUSE = re.compile(r"(?:(?:requires|ensures)\*?(?: \w+)?|ghost(?: \w+:)?)$")
OPENING, CLOSING = ("(", "{", "["), (")", "}", "]")
FUNCTION = re.compile(r'(?:#\[[^\]]*\] ?)*(pub(?:\(\w+\))? )?(extern "C" )?fn (\w+)')
ITEM = re.compile(r"(?:#\[[^\]]*\] ?)*(?:pub(?:\(\w+\))? )?(?:struct|enum|type|const) (?!fn |extern )(\w+)")
CODE_USE = re.compile(r"(?:pub )?use ([\w:]+)::(?:(\w+)(?: as (\w+))?;|\{([\w: ,]*)\})")
# what asks the check to try its tactics; any other line of a whole file could change what its clauses mean
TACTICS = re.compile(r"#!\[tactic\(auto(?:, unfolding\(\w+(?:::\w+)+\))?\)\]")
# an impl of these says nothing of what a value means in a clause, but what is printed or refused, what a conversion
# gives and which items come; a type's own methods have contracts of their own
IMPL = re.compile(
    r"impl(?:<'\w+>)? (?P<trait>(?:fmt::Display|Error|Iterator|From<\w+>) for )?\w+(?:<'\w+>)? \{"
)
MEMBERS = {"from_gives", "next_gives", "remaining", "output"}
USE = re.compile(rf"use ([^\s{{}}]+)\.\{{((?: ?{NAME}(?: as {NAME})? ?,)*(?: ?{NAME}(?: as {NAME})?)? ?)\}}")
VARIANTS = re.compile(rf"use (\S+\.TheVariants) as ({NAME})")
DECLARATION = re.compile(rf"((?:(?:unfoldable|abbrev|pub)\s+)+)(record\s+|data\s+)?({NAME})")
# what may stand at the left margin beside declarations, their clauses and `use` items; a brace there ends a declaration
FORMS = re.compile(r"(infix[lr]?|unfolding|module _)\s|}")
# a comment of several lines, and a name in quotes
HIDING = ("{-", "-}", "/*", "*/", "«", "»")
# words that hide something, or bring something into scope that this reading doesn't see
UNSEEN = {"open", "package", "axiom", "mutual", "ruleset", "syntax", "do"}
# words that stand behind a mark and begin no declaration that is followed
NO_NAMES = {"mod", "use", "module", "pattern", "open", "infix", "infixl", "infixr"}


def cached(f):
    kept = {}

    def once(path):
        if path not in kept:
            kept[path] = f(path)
        return kept[path]

    once.forget = lambda *paths: [kept.pop(path, None) for path in paths]
    return once


@cached
def text(path):
    """A file's text as it stands; none where there is no file."""
    try:
        with open(f"{ROOT}/{path}", encoding="utf-8", newline="") as f:
            return f.read()
    except OSError:
        return ""


@functools.lru_cache(None)
def every_file():
    """The files below crates/, but for what rt makes there: a crate's out/."""
    found = []
    for folder, folders, names in os.walk(f"{ROOT}/crates"):
        if os.path.dirname(os.path.dirname(folder)) == ROOT and "out" in folders:
            folders.remove("out")
        found += [os.path.relpath(f"{folder}/{name}", ROOT) for name in names]
    return sorted(found)


@functools.lru_cache(None)
def files(pattern):
    """The files below crates/ whose paths are as a regular expression says."""
    return [path for path in every_file() if re.fullmatch(pattern, path)]


@functools.lru_cache(None)
def is_file(path):
    return os.path.isfile(f"{ROOT}/{path}")


@functools.lru_cache(None)
def plain(text):
    """A text of antt without its comments."""
    return COMMENT.sub(lambda m: m[1] or "", text)


@functools.lru_cache(None)
def fold(text):
    """A text of antt on one line: blanks count as one, those inside of quotes as they are."""
    parts = re.split(rf"({QUOTED})", f" {text} ", flags=re.S)
    return "".join(re.sub(r"\s+", " ", part) if i % 2 == 0 else part for i, part in enumerate(parts)).strip()


@functools.lru_cache(None)
def words(text):
    """The names that a text of antt is made of, and the parts of an operator without all of its operands."""
    found = set(WORDS.findall(text))
    return (found | {part for word in found if HOLE in word for part in word.split(HOLE)}) - {""}


@functools.lru_cache(None)
def pieces(name):
    """What a name is written as where it is used: itself, and the parts of an operator."""
    return {name} | {part for part in name.split(HOLE) if part}


@cached
def items(path):
    """The parts of a file of antt: each begins at the left margin."""
    return [item for item in re.split(r"\n(?=\S)", plain(text(path))) if item.strip()]


class Item:
    """An item of the code without comments, on one line: of a function what stands before its body, and its clauses."""

    def __init__(self):
        self.text, self.clauses, self.lexer, self.clause = "", [], CODE, -1

    def add(self, kind, said):
        if kind == "blank" and self.text and not self.text.endswith(" "):
            self.text += " "
        elif kind not in ("blank", "comment"):
            self.text += said
        if self.text == "ghost use":
            self.lexer = ANTT

    def open(self):
        """A brace that stands in no other: of a function it opens a clause, or the body."""
        is_function, clause = FUNCTION.match(self.text), CLAUSE.search(self.text.rstrip())
        if is_function and clause:
            self.lexer, self.clause = ANTT, clause.start()
        self.add("mark", "{")
        if is_function and not clause:
            self.lexer = BODY

    def is_ended(self, mark):
        """Whether the item ends with a mark that stands in no brace; a clause does, and the item goes on."""
        if mark == "}" and self.clause >= 0:
            self.clauses.append(self.text[self.clause:])
            self.lexer, self.clause = CODE, -1
            return False
        if mark == "]":
            return TACTICS.fullmatch(self.text)
        return mark == ";" or mark == "}" and self.lexer is not ANTT


@cached
def code(path):
    """The items of a file of the code. Clauses and `ghost use` items are antt's, also their comments."""
    whole, at, depth, found, item = text(path), 0, 0, [], Item()
    while at < len(whole):
        m = item.lexer.match(whole, at)
        at, said, mark = m.end(), m[0], m[0] if m.lastgroup == "mark" else ""
        if mark == "{" and not depth:
            item.open()
        elif item.lexer is not BODY:
            item.add(m.lastgroup, said)
        depth += (mark in OPENING) - (mark in CLOSING)
        if mark and not depth and item.is_ended(mark):
            found.append(item)
            item = Item()
    return [i for i in found + [item] if i.text.strip() not in ("", ";")]


@cached
def use_items(path):
    """The `use` items of a file of antt, the `ghost use` items of a file of the code, each on one line."""
    if path.endswith(".rt"):
        return [i.text.removeprefix("ghost ").rstrip(" ;") for i in code(path) if i.text.startswith("ghost use")]
    return [fold(item) for item in items(path) if re.match(r"use\s", item)]


@cached
def uses(path):
    """What these bring: (module, name there, name here), both empty for a module that holds the cases of an enum."""
    found = []
    for item in use_items(path):
        if m := USE.fullmatch(item):
            for name in filter(None, (name.strip() for name in m[2].split(","))):
                there, _, here = name.partition(" as ")
                found.append((m[1], there, here or there))
        elif m := VARIANTS.fullmatch(item):
            found.append((m[1], "", m[2]))
    return found


@cached
def brought(path):
    """word -> what the `use` and `infix` items of a file make of it, the toolchain's names too."""
    found = {}
    for module, there, here in uses(path):
        for word in pieces(here):
            found.setdefault(word, set()).add(f"{here} is {module}.{there}")
    for line in (fold(item) for item in items(path) if item.startswith("infix")):
        for name in line.split()[1:]:
            for word in pieces(name):
                found.setdefault(word, set()).add(line)
    return found


def below(block):
    """The parts of a block after its `where`: each begins at the margin of the first."""
    body = re.split(r"\swhere[ ]*\n", block + "\n", maxsplit=1)[1:]
    margins = [len(m[1]) for part in body for m in re.finditer(r"^( *)\S", part, re.M)]
    return re.split(rf"\n(?= {{{min(margins)}}}\S)", "\n" + body[0])[1:] if margins else []


def names_of(block):
    """What a block brings into scope: its name, a data type's constructors and what is derived for it, what a module
    in it declares."""
    if block.startswith("module"):
        return {name for part in below(block) for name in names_of(re.sub(r"^ +", "", part))}
    m = DECLARATION.match(block) or re.match(rf"()()({NAME})", block)
    found = {m[3]} if m else set()
    for part in below(block) if m and (m[2] or "").startswith("data") else []:
        derived = re.match(r"\s*deriving\s.*\sas\s", part)
        found |= set((part[derived.end():] if derived else re.split(r"\s:\s", part)[0]).split())
    return found


@cached
def blocks(path):
    """The declarations of a file of antt, each with its clauses: what stands between two that begin with a mark."""
    found = []
    for item in items(path):
        if DECLARATION.match(item) or item.startswith("module"):
            found.append(item)
        elif found and not re.match(r"(use|infix[lr]?|mod|pub mod)\s", item):
            found[-1] += "\n" + item
    return [b for b in found if not re.match(r"pub\s+(mod|use)\s", b)]


def stated(block):
    """A proof without what proves it: its name and type."""
    return re.split(r"\n(?=\S)", block)[0]


@cached
def definitions(path):
    """name -> the declarations of a file that bring it; of proofs what they state, of a type of the code its item."""
    found = {}
    if is_file(path):
        for block in blocks(path):
            for name in names_of(block):
                found.setdefault(name, []).append(stated(block) if "/proofs/" in path else block)
    elif m := re.match(r"(crates/\w+)/specs/declared/((?:\w+/)*)(\w+)\.antt", path):
        item = code_items(code_file(m[1].split("/")[1], m[2].split("/")[:-1])).get(m[3])
        found = {name: [item] for name in re.findall(r"\w+", item)} if item else {}
    return found


@functools.lru_cache(None)
def crates():
    """The project's crates: what stands in crates/, whatever crates.txt lists."""
    return {path.split("/")[1] for path in every_file()}


@functools.lru_cache(None)
def file_of(module):
    """The file of specs/ or proofs/ that a module of the project's is, or stands in; of a type of the code, where it
    would be."""
    m = re.fullmatch(r"Rattle\.(\w+)\.(specs|proofs)\.([^\s{}]+)", module)
    if not m or m[1] not in crates():
        return ""
    parts = m[3].removesuffix(".TheVariants").split(".")
    path = lambda: f"crates/{m[1]}/{m[2]}/{'/'.join(parts)}.antt"
    while len(parts) > 1 and parts[0] != "declared" and not is_file(path()):
        parts.pop()
    return path()


@cached
def imports(path):
    """What a file brings from the project's crates: name -> (file, name there)."""
    found = {}
    for module, there, here in uses(path):
        if file := file_of(module):
            found[here] = (file, there or os.path.basename(file).removesuffix(".antt"))
    return found


def named_in(clause, path):
    """The places of what a text in a file names: in that file, or where the file brings it from."""
    said = words(clause)
    here = [n for n in definitions(path) if pieces(n) & said]
    there = [place for n, place in imports(path).items() if pieces(n) & said and n not in here]
    return [(path, n) for n in here] + there


@functools.lru_cache(None)
def step(place):
    """The declarations that bring the name at a place, and the places of what they name."""
    found, further = set(), []
    for block in definitions(place[0]).get(place[1], []):
        if "/declared/" in place[0]:
            found.add((place[0], block))
            continue
        from_where = sorted({w for word in words(block) for w in brought(place[0]).get(word, ())})
        found.add((place[0], " ".join([fold(block)] + from_where)))
        further += named_in(block, place[0])
    return found, further


def rests_on(places, follow=lambda here, there: True):
    """The declarations, with their files, that places rest on, in turn; `follow` says whether to go from one file to
    another."""
    found, seen, todo = set(), set(), list(places)
    while todo:
        place = todo.pop()
        if place not in seen:
            seen.add(place)
            declarations, further = step(place)
            found |= declarations
            todo += [p for p in further if follow(place[0], p[0])]
    return found


def code_file(crate, modules):
    """The file of a module of the code."""
    root = "main" if is_file(f"crates/{crate}/src/main.rt") else "lib"
    return f"crates/{crate}/src/{'/'.join(modules) or root}.rt"


@cached
def code_items(path):
    """name -> the struct, enum, type or constant of a file of the code."""
    return {m[1]: i.text for i in code(path) if (m := ITEM.match(i.text))}


def code_path(path, parts):
    """The file that a path of modules names, as written in a file of the code."""
    crate, *own = path.split("/")[1], *path.removesuffix(".rt").split("/")[3:]
    own = [] if own in (["lib"], ["main"]) else own
    if parts and parts[0] in ("crate", "self", "super"):
        start = {"crate": [], "self": own, "super": own[:-1]}[parts[0]]
        return code_file(crate, start + parts[1:])
    if parts and os.path.isdir(f"{ROOT}/crates/{parts[0]}"):
        return code_file(parts[0], parts[1:])
    return code_file(crate, own + parts)


@cached
def code_uses(path):
    """What the `use` items of a file of the code bring: (modules, name there, name here)."""
    found = []
    for m in filter(None, (CODE_USE.fullmatch(item.text) for item in code(path))):
        for name in [f"{m[2]} as {m[3] or m[2]}"] if m[2] else filter(None, map(str.strip, m[4].split(","))):
            way, _, here = name.partition(" as ")
            modules, _, there = f"{m[1]}::{way}".rpartition("::")
            found.append((modules, there, here or there))
    return found


def code_named(text, path):
    """The types and constants, with their files, that a text of the code names, in turn."""
    found, todo = set(), [(path, p, n) for p, n in re.findall(r"((?:\w+::)*)(\w+)", text)]
    brings = lambda f: {here: (modules, there) for modules, there, here in code_uses(f)}
    while todo:
        path, modules, name = todo.pop()
        file = code_path(path, modules.split("::")[:-1]) if modules else path
        item = code_items(file).get(name)
        if item and (file, item) not in found:
            found.add((file, item))
            todo += [(file, p, n) for p, n in re.findall(r"((?:\w+::)*)(\w+)", item)]
        elif not item and name in brings(file):
            modules, name = brings(file)[name]
            todo.append((file, modules + "::", name))
    return found


@functools.lru_cache(None)
def dependencies():
    """crate -> the crates that crates.txt lists for it."""
    listed = re.findall(r"^(\w+)(?: [\w= ]+)?:([^#\n]*)", text("crates.txt"), re.M)
    return {name: names.split() for name, names in listed}


@functools.lru_cache(None)
def functions(crate):
    """The functions of a crate that stand in no other item: (name, file, item)."""
    found = []
    for path in files(r"crates/\w+/src/.*\.rt"):
        if path.split("/")[1] != crate:
            continue
        modules = [part for part in path.removesuffix(".rt").split("/")[3:] if part not in ("lib", "main")]
        found += [("::".join([crate, *modules, m[3]]), path, i) for i in code(path) if (m := FUNCTION.match(i.text))]
    return found


def exported():
    """The functions that C can call."""
    return [f for crate in dependencies() for f in functions(crate) if FUNCTION.match(f[2].text)[2]]


def repeated(exported):
    """The function that one which C can call passes on, with its contract: that of the same name, in the crate below;
    itself, where there is none."""
    name = exported[0].split("::")[-1]
    below = [f for crate in dependencies()[exported[0].split("::")[0]] for f in functions(crate)]
    return next((f for f in below if f[0].split("::")[1:] == [name]), exported)


def calls():
    """The functions that others call: those that C can call, as the crate below has them, those with a contract in a
    program, and the public ones of a crate that only programs call."""
    programs = {c for c in dependencies() if is_file(f"crates/{c}/src/main.rt")}
    above = {c: {d for d, names in dependencies().items() if c in names and functions(d)} for c in dependencies()}
    found = [repeated(f) for f in exported()]
    for crate in dependencies():
        for f in functions(crate):
            public = FUNCTION.match(f[2].text)[1] == "pub " and above[crate] and above[crate] <= programs
            if f not in found + exported() and (public or (crate in programs and f[2].clauses)):
                found.append(f)
    return found


def head_of(item):
    """What a function is called with and answers, without attributes and clauses, and without what C asks for."""
    text = item.text.removesuffix("{").strip().removesuffix(" ".join(item.clauses)).strip()
    return re.sub(r"^(?:#\[[^\]]*\] ?)*", "", text).replace('extern "C" ', "")


def is_followed(item, own):
    """Whether an item of a file of specs/ is of a form that this reading follows; `own` is the name of the
    declaration above it."""
    line, first = fold(item), re.match(NAME, item)
    if m := DECLARATION.match(item):
        return m[3] not in NO_NAMES
    return USE.fullmatch(line) or VARIANTS.fullmatch(line) or FORMS.match(item) or (first and first[0] == own)


def is_hiding(item):
    """Whether an item of a file of specs/ has a word that this reading doesn't follow. What goes by its lines would
    lose them with the blanks that don't count: a `where` is for types and sections."""
    m, line = DECLARATION.match(item), fold(item)
    own = {"where"} if not (m and m[2]) and not item.startswith("module") else set()
    if any(word in item for word in UNSEEN | own) and (UNSEEN | own) & words(item):
        return True
    if "deriving" in item and not re.search(rf"deriving {NAME} as {NAME}$", line):
        return True
    return "Rattle" in line and "Rattle" in words(item) and not line.startswith("use ")


def unread_antt(path):
    """The forms of a file of specs/ that this reading doesn't follow."""
    found, own, parts = [], "", path.split("/")[3:]
    if parts[:-1] not in ([], ["Internal"]):
        found.append("a file of specs/ stands there or in specs/Internal/")
    for item in items(path):
        if parts[-1] in ("Lib.antt", "Internal.antt"):
            followed = re.fullmatch(r"(pub )?mod \w+", fold(item))
        else:
            followed = is_followed(item, own)
        own = DECLARATION.match(item)[3] if DECLARATION.match(item) else own
        if not followed or is_hiding(item):
            found.append(f"`{fold(item)[:60]}` is of no form that is followed")
    return found


def is_code_followed(item):
    """Whether an item of the code is of a form that this reading follows."""
    line = item.text.removeprefix("ghost ").rstrip(" ;")
    if TACTICS.fullmatch(item.text):
        return True
    if item.text.startswith("ghost "):
        return USE.fullmatch(line) or VARIANTS.fullmatch(line)
    if m := ITEM.match(item.text):
        # what a type of a crate's own keeps, its functions' contracts alone speak of
        return not (re.search(r"\bghost\b", item.text) and re.search(r"\bpub (?!\()", m[0]))
    impl = IMPL.match(item.text)
    own = impl and set(re.findall(r"\bghost (\w+)", item.text)) <= {"use"} | (MEMBERS if impl["trait"] else set())
    other = (re.match(r"(pub )?mod \w+;", item.text) or own) and "extern" not in item.text
    return FUNCTION.match(item.text) or CODE_USE.fullmatch(item.text) or other


def unread_code(path):
    """The forms of a file of the code that this reading doesn't follow."""
    found = ["a raw string is not read"] if re.search(r'\bb?r#*"', text(path)) else []
    for item in code(path):
        if not is_code_followed(item):
            found.append(f"`{item.text[:60]}` is of no form that is followed")
        if any((UNSEEN | {"Rattle"}) & words(clause) for clause in item.clauses):
            found.append(f"`{item.text[:60]}` has a clause of no form that is followed")
    return found


def unfound(path):
    """What a file brings that isn't where it is brought from, as far as this reading sees."""
    found = []
    for module, there, here in uses(path):
        head = module.split(".")[0]
        if head in brought(path) or head in definitions(path):
            found.append(f"`{head}` is not the library of that name in {module}")
        place = imports(path).get(here)
        declared = definitions(place[0]).get(place[1]) if place else None
        if (place or module.split(".")[:1] == ["Rattle"] and set(module.split(".")[1:2]) & crates()) and not declared:
            found.append(f"{there or here} is not declared in {module}")
        elif declared and "/proofs/" in place[0] and not re.search(r" ≡ [^→]*$", fold(declared[0])):
            found.append(f"{there} is no law, and stands among proofs")
    return found


def unread(path):
    """What a file has that this reading may take for something else than the toolchain does."""
    whole = text(path)
    found = [f"has `{mark}`" for mark in HIDING if mark in whole]
    if not whole.replace("\n", "").isprintable():
        signs = sorted({f"{ord(c):#x}" for c in whole if c != "\n" and not c.isprintable()})
        found.append(f"has a sign that can't be seen: {', '.join(signs)}")
    if "/proofs/" not in path:
        found += ["has `⟦`, code in a text of antt"] if "⟦" in whole else []
        found += (unread_code if path.endswith(".rt") else unread_antt)(path) + unfound(path)
    return [f"{path}: {fault}" for fault in found]
