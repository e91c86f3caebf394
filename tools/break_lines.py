#!/usr/bin/env python3
"""Breaks the lines that names of today's spelling made longer than tests/style allows: tools/break_lines.py [CRATE..]

A `use` line becomes several; another line goes on in the next, four columns further in, from the place with the fewest
open brackets, at best before an operator or behind the `=` of a declaration. A comment at the end of a line stays at
its end. To the prover nothing changes; rt fmt and rt check say so. What it can't break it prints, and each must-fail
edit whose text stood in a line that is broken now.
"""
import glob, os, re, sys

ROOT = os.path.dirname(os.path.dirname(os.path.abspath(__file__)))
WIDTH = 120
QUOTED = re.compile(r' *"(?:\\.|[^"\\])*"')
USE = re.compile(r"( *(?:(?:ghost|pub) )?use [^{}]*\{)([^{}]*)(\};?)$")
# those that bind least come first; then an argument in brackets
OPERATORS = [("→",), ("×", "⊎", "↔"), ("≡", "≤", "<"), ("∙", "∷", "++", "+", "*"), ("(", "[")]


def places(code):
    """The places of the blanks of a line, each with how many brackets are open there."""
    depth, quoted, found = 0, False, []
    for i, c in enumerate(code):
        if quoted:
            quoted = c != '"' or code[i - 1] == "\\"
        elif c == '"':
            quoted = True
        elif c in "({[":
            depth += 1
        elif c in ")}]":
            depth -= 1
        elif c == " " and code[:i].strip():
            found.append((i, depth))
    return found


def cost(code, i, depth):
    """What a break there costs: open brackets first, then a worse place for the eye."""
    rest, before = code[i + 1 :], code[:i]
    if re.search(r"^ *(abbrev |pub )?\S+( \S+)* =$", before) and depth == 0:
        return (-1, 0, -i)
    for n, operators in enumerate(OPERATORS):
        if rest.startswith(tuple(o if o in "([" else f"{o} " for o in operators)):
            return (depth, n, -i)
    return (depth, len(OPERATORS), -i)


def broken(line):
    """The lines that a line becomes."""
    if len(line) <= WIDTH or QUOTED.fullmatch(line):
        return [line]
    if m := USE.match(line):
        lines, now = [], []
        for name in m[2].split(", ") + [None]:
            if name is None or now and len(m[1] + ", ".join(now + [name]) + m[3]) > WIDTH:
                lines.append(m[1] + ", ".join(now) + m[3])
                now = []
            now.append(name)
        return lines
    comment = re.search(r"  (--|//) [^\"]*$", line)
    code, said = (line[: comment.start()], comment[0]) if comment else (line, "")
    margin = len(code) - len(code.lstrip())
    within = [(i, d) for i, d in places(code) if i <= WIDTH and i > margin + 12]
    if not within or re.match(r" *(--|//)", line):
        return [line]
    at = min(within, key=lambda place: cost(code, *place))[0]
    # an operator that begins this line and the next stands in one column
    again = re.match(r" *(\S+) ", code)[1] in OPERATORS[0] and code[at + 1 :].startswith(OPERATORS[0][0])
    indent = " " * (margin + (0 if again else 4))
    return [code[:at].rstrip()] + broken(indent + code[at:].strip() + said)


def texts(crate):
    """The texts that the crate's must-fail edits change."""
    for path in sorted(glob.glob(f"{ROOT}/crates/{crate}/must-fail/*.edit")):
        with open(path, encoding="utf-8") as f:
            yield from ((os.path.relpath(path, ROOT), text) for text in re.findall(r"^old: (.*)$", f.read(), re.M))


def main(crates):
    lost = []
    for crate in crates or sorted(os.listdir(f"{ROOT}/crates")):
        for folder in ("src", "specs", "proofs"):
            paths = glob.glob(f"{ROOT}/crates/{crate}/{folder}/**/*.*", recursive=True)
            for path in sorted(p for p in paths if p.endswith((".rt", ".antt"))):
                with open(path, encoding="utf-8") as f:
                    old = f.read()
                new = "\n".join(part for line in old.split("\n") for part in broken(line))
                if new != old:
                    with open(path, "w", encoding="utf-8") as f:
                        f.write(new)
                    lost += [f"{e}: `{t}` stands in no line any more" for e, t in texts(crate) if t in old and t not in new]
                for n, line in enumerate(new.split("\n"), 1):
                    if len(line) > WIDTH and not QUOTED.fullmatch(line):
                        lost.append(f"{os.path.relpath(path, ROOT)}:{n}: {len(line)} characters")
    print("\n".join(lost) or "no line is too long")
    return 1 if lost else 0


if __name__ == "__main__":
    sys.exit(main(sys.argv[1:]))
