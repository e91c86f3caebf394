#!/usr/bin/env python3
"""Gives the goals, the places and the steps in Proof.antt files the names that today's Rattle gives them.

    rt names OUT; tools/goal_names.py OUT [CRATE..]    once, at the top of the repository, after tools/spell_names.py

OUT has a file names.json for each crate, with old and new names beside one another. A proof still lists what the
toolchain asks of its function, in the order of the code; a declaration of its own for a goal has the goal's name. A
path from a goal's places (`c.before.before.byte.ensures`) becomes the one that is open there (`c.byte.ensures`), since
an arm of a match is one place today. The lines `at:` of the must-fail edits follow. What it can't tell it says.
"""
import glob, json, os, re, sys

ROOT = os.path.dirname(os.path.dirname(os.path.abspath(__file__)))
WORD = r"[^\s(){};,.@\"«»\[\]`:]"
START = rf"(?<![^\s(){{}};,\[\]])"


def read(path):
    with open(path, encoding="utf-8") as f:
        return f.read()


def write(path, text):
    with open(path, "w", encoding="utf-8") as f:
        f.write(text)


def plain(name):
    """A name without the spelling of an older toolchain."""
    name = name.replace("-", "_")
    for old, new in (("holds", "init"), ("again", "preserved"), ("less", "smaller")):
        name = re.sub(rf"_{old}(_\d+)?$", rf"_{new}\1", name)
    return name.removeprefix("overflow_")


class Function:
    """The old and the new names of one function's goals, places and steps."""

    def __init__(self, key, x):
        self.name = key.rsplit("Lts", 1)[1].removeprefix("-")
        self.stem, self.arms = x["stem"], {}
        self.needs, self.at, self.loops, self.places, self.parent, self.step = {}, {}, {}, {}, {}, {}
        for i, p in enumerate(x["places"]):
            self.places[p[0]], self.parent[p[0]], self.step[p[0]] = x["places_by_name"][i], p[1], p[2]
            self.arms[p[0]] = x["arms"][i]
        for (old, new), _ in x["loops"]:
            self.loops[old] = new
        for i, (old, new) in enumerate(x["needs"]):
            self.needs[old], self.at[old] = new, x["asked_at"][i][0]
        self.plain = {plain(old): old for old in self.needs}
        self.fields = dict(pair for pair in x["args"])

    def place(self, word):
        same = [p for p in self.places if p.replace("-", "_") == word.replace("-", "_")]
        return same[0] if same else None

    def whole(self, place):
        """Whether a place is one today: the last of an arm, or of none."""
        return not self.arms[place] or self.places[place] == "I" + self.arms[place][0][1:]

    def same_arm(self, p, q):
        return p == q or bool(self.arms[p] and self.arms[q] and self.arms[p][0] == self.arms[q][0])

    def last(self, place):
        """The last place of the arm that a place is in."""
        same = [p for p in self.places if self.same_arm(p, place) and self.whole(p)]
        return same[-1] if same else place

    def back(self, place):
        """The place before a place, today."""
        arm, place = self.arms[place], self.parent[place]
        while place and arm and self.arms[place] and self.arms[place][0] == arm[0]:
            place = self.parent[place]
        return place

    def hops(self, start, goal):
        """How many places lie between two, today."""
        n, now = 0, start
        while now:
            if now == goal:
                return n
            arm = self.arms[now]
            if arm and self.arms[goal] and self.arms[goal][0] == arm[0] and self.whole(now):
                return n
            now, n = self.back(now), n + 1
        return None

    def chain(self, place):
        while place:
            yield place
            place = self.parent[place]

    def generated(self, word):
        """The new name of a member of the function's generated module."""
        if word.startswith("Need-"):
            rest = word[len("Need-"):]
            for old, new in self.needs.items():
                if plain(rest) in (plain(old), plain(new)):
                    return "Need-" + new
        for head in ("invariant-", "decreases-"):
            if word.startswith(head) and word[len(head):] in self.loops:
                return head + self.loops[word[len(head):]]
        return self.places[self.last(self.place(word))] if self.place(word) else word


class Walk:
    """A region of a proof, with the places that its variables stand for."""

    def __init__(self, f, env, functions, said):
        self.f, self.env, self.functions, self.said = f, dict(env), functions, said

    def path(self, root, place, fields):
        """A path from a place, and the place that it ends at, if any."""
        f, start = self.f, place
        while fields and fields[0] == "before":
            place = f.parent[place]
            fields = fields[1:]
            if place is None:
                self.said.append(f"{root}: too many `before` from {start}")
                return None, None
        if not fields:
            place = next((p for p in f.chain(start) if f.arms[place] and f.same_arm(p, place)), place)
            n = f.hops(start, place)
            if n is None:
                self.said.append(f"{root}: no way from {start} to {place}")
                return None, None
            return root + ".before" * n, place
        key = fields[0].replace("-", "_")
        for at in f.chain(place):
            old, new = f.step[at]
            if old.replace("-", "_") != key or not old:
                continue
            # the last place of the arm on the way from the start
            last = None
            if f.arms[at]:
                for p in f.chain(start):
                    if f.arms[p] and f.arms[p][0] == f.arms[at][0]:
                        last = p
                        break
            if last is None:
                return ".".join([root, new] + self.kept(fields[1:])), None
            best = None
            for field, of, inner in f.arms[last][2]:
                if of.replace("-", "_") == key and fields[1 : 1 + len(inner)] == inner:
                    if best is None or len(inner) > len(best[1]):
                        best = (field, inner)
            if best is None:
                self.said.append(f"{root}: {'.'.join(fields)} is not in {f.arms[last]}")
                return None, None
            head = f.arms[last][0] if f.whole(last) else new
            return ".".join([root, head, best[0]] + fields[1 + len(best[1]):]), None
        return ".".join([root] + self.kept(fields)), None

    def kept(self, fields):
        return ["invariant" if x == "inv" else x for x in fields]

    def turn(self, text):
        """The region with its paths turned, and with the places that `let` names."""
        out, i = [], 0
        names = "|".join(sorted(map(re.escape, self.functions), key=len, reverse=True)) or "(?!)"
        path = re.compile(
            rf"(?:\blet (?P<let>{WORD}+) = )?(?:\((?P<fn>{names}) (?P<arg>{WORD}+)\)|{START}(?P<var>{WORD}+))"
            rf"(?P<fields>(?:\.{WORD}+)*)"
        )
        for m in iter(lambda: path.search(text, i), None):
            out.append(text[i : m.start()])
            i = m.end()
            if m["fn"] and m["arg"] in self.env:
                root, place = f"({m['fn']} {m['arg']})", self.functions[m["fn"]]
            elif m["var"] and m["var"] in self.env:
                root, place = m["var"], self.env[m["var"]]
            else:
                out.append(m[0])
                continue
            new, ends = self.path(root, place, m["fields"].split(".")[1:])
            out.append((f"let {m['let']} = " if m["let"] else "") + (new or root + m["fields"]))
            if m["let"]:
                if ends:
                    self.env[m["let"]] = ends
                else:
                    self.env.pop(m["let"], None)
        return "".join(out) + text[i:]


def regions(text):
    """The parts of a proof: declarations, and in the last one each argument that a comment names."""
    out, now = [], []
    for line in text.split("\n"):
        if now and re.match(rf"(?:abbrev |pub |unfolding )?{WORD}", line) and not now[-1].strip():
            out.append(now)
            now = []
        now.append(line)
        if re.search(r"  -- \S+$", line):
            out.append(now)
            now = []
    return ["\n".join(r) for r in out + [now]]


def turn(path, functions):
    """A proof with today's names; gives the old and the new names of its declarations."""
    text, own, said, places = read(path), {}, [], {}
    by_name = {f.name: f for f in functions}
    alias = {m[2]: by_name.get(m[1], functions[0]) for m in re.finditer(rf"\.Lts-({WORD}+) as ({WORD}+)", text)}
    if len(functions) == 1:
        alias["tie"] = functions[0]
    out, of = [], functions[0]
    for r in regions(text):
        goal, env = None, {}
        if not re.match(r"(--.*\n)*use ", r):
            head = re.search(rf"^(?:pub |abbrev )?({WORD}+) :", r, re.M)
            m = re.search(rf"({WORD}+)\.Need-({WORD}+)", r)
            if head and m and m[1] in alias and not re.search(r"  -- \S+$", r):
                of, goal = alias[m[1]], None
                new = of.generated("Need-" + m[2])[len("Need-"):]
                goal = next((old for old in of.needs if of.needs[old] == new), None)
                if goal is None:
                    said.append(f"no goal {m[2]}")
                else:
                    own[head[1]] = new if len(functions) == 1 else of.stem + new
            for m in re.finditer(rf"\(({WORD}+) : ({WORD}+)\.({WORD}+)", r):
                if m[2] in alias and alias[m[2]].place(m[3]):
                    of = alias[m[2]]
                    env[m[1]] = of.last(of.place(m[3]))
            m = re.search(rf"^(?:abbrev )?({WORD}+) : ({WORD}+)\.({WORD}+).* → ({WORD}+)\.({WORD}+)", r, re.M)
            if m and m[2] in alias and alias[m[2]].place(m[3]) and alias[m[4]].place(m[5]):
                of = alias[m[2]]
                places[m[1]] = of.last(of.place(m[5]))
                env[re.search(rf"^{re.escape(m[1])} ({WORD}+)", r, re.M)[1]] = of.last(of.place(m[3]))
            comment = re.search(r"  -- (\S+)$", r)
            lambda_ = re.search(rf"\(?λ ({WORD}+)(?: {WORD}+)*\. ?", r)
            if comment:
                goal = of.plain.get(plain(comment[1]))
                if goal:
                    r = r[: comment.start(1)] + of.needs[goal] + r[comment.end(1) :]
                else:
                    said.append(f"no goal {comment[1]}")
            if goal and comment and lambda_:
                env[lambda_[1]] = of.at[goal]
            elif goal and not comment:
                m = re.search(rf"^{re.escape(head[1])}((?: {WORD}+)+) =", r, re.M)
                if m:
                    args = m[1].split()
                    env[[a for a in args if a not in ("κs", "t", "g")][0]] = of.at[goal]
            elif not comment and lambda_ and r.rstrip().endswith(")") and "spec" not in r.split("(λ")[0]:
                last = [g for g in of.needs][-1]
                env.setdefault(lambda_[1], of.at[last])
            for m in re.finditer(rf"^(?:abbrev )?({WORD}+) :\s+tie\.((?:invariant|decreases)-{WORD}+)", r, re.M):
                own[m[1]] = of.generated(m[2])
            r = Walk(of, env, places, said).turn(r)
            for old, new in of.fields.items():
                if old.startswith("."):
                    a, b = old.split(" ")[-1], new.split(" ")[-1]
                    r = re.sub(rf"(?<=\w){re.escape(a)}(?!{WORD})", b, r)
            r = re.sub(
                rf"{START}({WORD}+)\.(Need-{WORD}+|invariant-{WORD}+|decreases-{WORD}+|[A-Z]{WORD}*)",
                lambda m: f"{m[1]}.{alias[m[1]].generated(m[2])}" if m[1] in alias else m[0],
                r,
            )
        out.append(r)
        for m in re.finditer(rf"{START}({WORD}+)\.spec", r):
            of = alias.get(m[1], of)
    text = "\n".join(out)
    if len(set(own.values())) < len(own):
        said.append(f"two declarations for one goal: {own}")
    lines = []
    for line in text.split("\n"):
        code, mark, comment = line.partition("-- ")
        code = re.sub(rf"{START}({WORD}+)", lambda m: own.get(m[1], m[1]), code)
        lines.append(code + mark + comment)
    write(path, "\n".join(lines))
    return own, said


def main():
    out, only = sys.argv[1], sys.argv[2:]
    renamed = {}
    for crate in only or sorted(os.listdir(f"{ROOT}/crates")):
        path = f"{out}/crates/{crate}/names.json"
        if not os.path.isfile(path):
            print(f"{crate}: no names")
            continue
        folders = {}
        for key, x in json.load(open(path, encoding="utf-8")).items():
            m = re.fullmatch(rf"Rattle-{crate}-proofs\.(.*)\.Lts(?:-.*)?", key)
            if m:
                folders.setdefault(m[1].replace(".", "/"), []).append(Function(key, x))
        for proof in sorted(glob.glob(f"{ROOT}/crates/{crate}/proofs/**/Proof.antt", recursive=True)):
            name = os.path.relpath(os.path.dirname(proof), f"{ROOT}/crates/{crate}/proofs")
            if name not in folders:
                print(f"{crate}/{name}: no names")
                continue
            own, said = turn(proof, folders[name])
            for s in said:
                print(f"{crate}/{name}: {s}")
            renamed[f"{crate}/proofs/{name}/Proof.antt"] = own
    for path in glob.glob(f"{ROOT}/crates/*/must-fail/*.edit"):
        crate = path.split("/")[-3]

        def at(m):
            own = renamed.get(f"{crate}/{m[1]}", {})
            return f"at: {m[1]}, {own.get(m[2], m[2])}"

        write(path, re.sub(r"^at: (\S+), (\S+)$", at, read(path), flags=re.M))


main()
