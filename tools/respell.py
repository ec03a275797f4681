#!/usr/bin/env python3
"""Spells the names that this repository's own antt declares in snake case, types and modules aside.

usage: python3 tools/respell.py        at the top of the repository, once, after the kit's port.py

It turns names with a dash or with capitals inside, as has-union and afterRounds, to has_union and after_rounds: in specs/ and
proofs/, in the clauses and ghost use items of src/, in the texts of must-fail edits, and in the code spans of README.md and
docs/. A name turns only in a file that declares it or takes it from a crate of this repository; a record's field turns behind a
dot too. Functions of src/, goals, strings, comments' prose, inputs and outputs keep their names. A name that would meet another
in some file has its spelling in CLASHES. It prints what falls together and writes nothing then.
"""

import collections
import glob
import os
import re
import sys

WORD = r'[^\s(){}.;,@"«»]+'
DECLARED = re.compile(rf"^([ \t]*)(?:(?:pub|abbrev|unfoldable)[ \t]+)*({WORD}(?: {WORD})*)((?: \{{[^{{}}\n]*\}})*) :(?![:=])", re.M)
# What begins a line that declares nothing of its own.
OTHER = "let in where use module record data elim rw simp open infixl infixr infix λ".split()
USE = re.compile(r"^[ \t]*(?:pub |ghost )*use (Rattle\.(\w+)\.[^\s;{]*?)\.?(?:\{([^}]*)\})?(?: as (\S+?))?;?[ \t]*$", re.M)
# A goal that Rattle makes, and so its name.
MADE = re.compile(r"^\S+ : (?:tie|goal)\.")
# A lemma whose plain spelling its definition has gets the ending _lem.
LEMMAS = """last-of number-in in-range parts-of parts-at stands_at list_at is_digit word_count word_number given-up emitted-free
is-nothing crowded-within has-low blank-byte signal-ranged row-steps read-kind read-text as-chain as-single exits-if first-text
second-text""".split()
CLASHES = {n: n.replace("-", "_") + "_lem" for n in LEMMAS} | {"code-of": "code_of_reaction"}


def crates():
    return [line.split(":")[0].split()[0] for line in open("crates.txt") if line.split("#")[0].strip()]


def in_snake_case(name):
    if name in CLASHES:
        return CLASHES[name]
    if not (re.search(r"-", name) or re.search(r"[a-z0-9][A-Z]", name)):
        return name
    if re.match(r"[A-Z]", name):
        # A type keeps its spelling, and at the head of a lemma's name too.
        head, dash, rest = name.partition("-")
        return head + ("_" + in_snake_case(rest) if dash else "")
    if re.fullmatch(r"[+*<>=-]+", name):
        return name
    turned = re.sub(r"(?<=[a-z0-9])([A-Z])", lambda m: "_" + m[1].lower(), name)
    ending = "-" if turned.endswith("-") else ""
    return turned.removesuffix("-").replace("-", "_").replace("__", "_") + ending


def is_proof_of_function(path):
    return "/proofs/" in path and os.path.basename(path) in ("Proof.antt", "Answers.antt", "Invariants.antt") and path.count("/") > 3


def files():
    return sorted(glob.glob("crates/*/specs/**/*.antt", recursive=True) + glob.glob("crates/*/proofs/**/*.antt", recursive=True))


def without_comments(text):
    return re.sub(r"(^|\s)--[^\n]*", r"\1", text)


def declared_in(path, text):
    """The names that a file declares, with whether each is a field; goals of a function's proof aside."""
    out = {}
    plain = without_comments(text)
    for m in DECLARED.finditer(plain):
        line = plain[m.start(): plain.find("\n", m.start())]
        if is_proof_of_function(path) and not m[1] and (MADE.match(line) or " → statement M" in line):
            continue
        if m[2].split()[0] not in OTHER:
            out |= {n: bool(m[1]) for n in m[2].split()}
    return out


def main():
    own = crates()
    texts = {p: open(p, encoding="utf-8").read() for p in files()}
    rust = sorted(glob.glob("crates/*/src/**/*.rt", recursive=True))
    declared = {p: declared_in(p, t) for p, t in texts.items()}
    everywhere = collections.Counter()
    fields = set()
    for p, names in declared.items():
        for n, inner in names.items():
            if in_snake_case(n) != n:
                everywhere[n] += 1
                if inner:
                    fields.add(n)
    bad = []

    def taken(path, text):
        """The names of the file that turn: declared in it, or taken from this repository's crates."""
        mine = {n for n in declared.get(path, {}) if in_snake_case(n) != n} | fields
        theirs = set()
        for m in USE.finditer(text):
            names = [w.strip() for w in (m[3] or "").split(",") if w.strip()]
            for w in names:
                first, _, alias = w.partition(" as ")
                if m[2] in own and "specs.declared" not in m[1] and ".Tie" not in m[1] and ".Goals" not in m[1]:
                    if first in everywhere:
                        mine.add(first)
                else:
                    theirs.add(first)
                if alias and re.match(r"[a-z]", alias) and in_snake_case(alias) != alias:
                    mine.add(alias)
            if m[4] and re.match(r"[a-z]", m[4]) and in_snake_case(m[4]) != m[4] and not is_proof_of_function(path):
                mine.add(m[4])
        for m in re.finditer(r"^\s*(?:pub )?use (?!Rattle)[^\s{]*\{([^}]*)\}", text, re.M):
            theirs |= {w.strip().split(" as ")[0] for w in m[1].split(",")}
        return mine - theirs

    word = re.compile(WORD)
    # A word that is no part of a path.
    alone = re.compile(r"(?<![^\s(){},;@\"«»])" + WORD + r"(?![^\s(){},;@\"«»])")

    # What a ghost use item calls a module of definitions.
    called = re.compile(r"ghost use Rattle\.(?:" + "|".join(own) + r")\.specs\.\S+ as (\w+);")
    heads = {m[1] for p in rust for m in called.finditer(open(p, encoding="utf-8").read())}

    def turn(text, mine, dotted):
        def one(m):
            w = m[0]
            if w in everywhere and re.search(r"(?<![\w.])(?:" + "|".join(sorted(heads)) + r")\.$", text[:m.start()]):
                return in_snake_case(w)
            if w in mine or (dotted and m.start() and text[m.start() - 1] == "." and w in fields):
                return in_snake_case(w)
            return w
        return word.sub(one, text)

    def turn_code(text, mine):
        """Code turns, comments but for their code spans do not; a code span may name what is the file's or any."""
        out = []
        for line in text.split("\n"):
            m = re.search(r"(?:^|(?<=\s))(--|//) ?", line)
            code, comment = (line[: m.start()], line[m.start():]) if m else (line, "")
            # A path of a crate's own modules keeps its dots; a made name in it keeps its spelling.
            code = turn(code, mine, True)
            comment = re.sub(r"`([^`]*)`", lambda s: "`" + turn(s[1], set(everywhere), True) + "`", comment)
            comment = turn(comment, {w for w in mine if "-" in w or re.search("[a-z][A-Z]", w)}, False)
            out.append(code + comment)
        return "\n".join(out)

    result = {}
    for p, t in texts.items():
        mine = taken(p, t)
        words = set(alone.findall(without_comments(t)))
        seen = {}
        for n in sorted(mine & words):
            s = in_snake_case(n)
            if s in words and s not in mine:
                bad.append(f"{p}: {n} would meet {s}")
            if s in seen:
                bad.append(f"{p}: {n} and {seen[s]} fall together")
            seen[s] = n
        result[p] = turn_code(t, mine)
    for p in rust:
        t = open(p, encoding="utf-8").read()
        mine = taken(p, t)
        ghost = " ".join(m[0] for m in re.finditer(r"ghost use[^;]*;", t))
        # A function may be called as a definition is; what a clause can name beside it may not.
        code = re.sub(r"^use [^;]*;", "", t, flags=re.M)
        words = {w[0] for w in alone.finditer(code) if not re.match(r"\(", code[w.end():])}
        words |= {m[1] for m in re.finditer(r"(?<!fn )(?<![\w.:])(\w+): (?!:)", t)}
        for n in mine:
            if in_snake_case(n) in words and in_snake_case(n) not in mine:
                bad.append(f"{p}: {n} would meet {in_snake_case(n)}")
        result[p] = turn_code(t, mine)
    for p in sorted(glob.glob("crates/*/must-fail/*.edit")):
        lines = open(p, encoding="utf-8").read().split("\n")
        mine = set()
        for i, line in enumerate(lines):
            if line.startswith("file: "):
                at = os.path.join(os.path.dirname(os.path.dirname(p)), line[6:])
                mine = taken(at, open(at, encoding="utf-8").read()) if os.path.exists(at) else set()
            elif line.startswith(("old: ", "new: ")):
                lines[i] = line[:5] + turn(line[5:], mine, True)
        result[p] = "\n".join(lines)
    spans = re.compile(r"(?<!`)`([^`\n]+)`(?!`)")
    for p in ["README.md", *sorted(glob.glob("docs/*.md") + glob.glob("docs/orders/*.md"))]:
        if os.path.basename(p).startswith("PORT"):
            continue
        t = open(p, encoding="utf-8").read()
        result[p] = spans.sub(lambda s: "`" + (s[1] if "/" in s[1] and "." in s[1] else turn(s[1], set(everywhere), True)) + "`", t)
    # Two names of one file, or of one record, that fall together.
    for p, names in declared.items():
        seen = {}
        for n in names:
            s = in_snake_case(n) if n in everywhere else n
            if s in seen and seen[s] != n:
                bad.append(f"{p}: {n} and {seen[s]} fall together")
            seen[s] = n
    if bad:
        print("\n".join(bad))
        sys.exit(1)
    changed = 0
    for p, t in result.items():
        if t != open(p, encoding="utf-8").read():
            changed += 1
            with open(p, "w", encoding="utf-8") as f:
                f.write(t)
    print(f"respell: {len(everywhere)} names, {changed} files")


main()
