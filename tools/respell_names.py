#!/usr/bin/env python3
"""Respells the names that this repository's definitions and lemmas declare: words in snake case, and a dash only where a lemma's name joins two names.

usage: python3 tools/respell_names.py [--check]     at the top of the repository

It reads the names that specs/ and proofs/ of every crate declare, and turns each one everywhere: in specs/, in proofs/, in the clauses, ghost items
and comments of src/, in the must-fail edits. Strings and code stay as they are. --check writes nothing and lists what would turn, and
which new names stand already in a file that would turn.
"""

import glob
import os
import re
import sys

TOKEN = re.compile(r'[^\s(){}.;,@"«»]+')
DECLARED = re.compile(r"^(\s*)(?:abbrev +)?(?:unfoldable +)?(?:pub +)?(?:abbrev +)?(?:data +|record +)?([^\s(){}.;,@\"«»:]+)((?: +\(.*?\)| +\{.*?\})*) +: (.*)$")
COMMENT = re.compile(r"--.*$")
RT_PARTS = re.compile(r'(?P<comment>//[^\n]*)|(?P<text>b?"(?:\\.|[^"\\])*")|(?P<other>(?:(?!//|b?").)+|.)', re.S)

# words that a lemma's name joins to a name as a plain word
JOINED = {"add", "sub", "mul", "div", "mod", "suc", "zero", "one", "append", "cons", "nil", "length", "take", "drop", "replicate", "get", "set", "map",
          "head", "tail", "get_or", "ap", "pow", "two", "eq", "ne", "lt", "le", "concat", "reverse", "None", "Some", "Ok", "Err", "true", "false", "xor", "or", "and", "not"}


# names that stand for a fact are in camel case, and names of values begin small
GIVEN = {"First-set": "FirstSet", "All-clear": "AllClear", "Blank-plan": "BlankPlan", "Label-is": "label_is", "New-is": "new_is", "Store-is": "store_is", "Shift-is": "shift_is"}


def files(*patterns):
    return sorted(f for p in patterns for f in glob.glob(p, recursive=True) if "/out/" not in f)


def read(path):
    with open(path, encoding="utf-8") as f:
        return f.read()


def declared():
    """Each name with a dash that a file of specs/ or proofs/ declares, with whether it is a lemma."""
    found = {}
    for path in files("crates/*/specs/**/*.antt", "crates/*/proofs/**/*.antt"):
        lines = read(path).split("\n")
        for at, line in enumerate(lines):
            m = DECLARED.match(COMMENT.sub("", line))
            if not m or line.lstrip().startswith(("let ", "use ", "--", "elim", "λ")):
                continue
            name, rest = m[2], m[4]
            if "-" not in name.strip("-") or re.search(r"\bgoal\.", rest) or name.startswith(("invariant-", "decreases-", "ghost-")):
                continue
            inside_let = m[1] and "let" in line
            if inside_let or rest.rstrip().endswith(" in"):
                continue
            # the whole signature: lines that go on deeper or begin with an arrow
            whole = rest
            for more in lines[at + 1:]:
                if more.strip().startswith("→") or (more.startswith(m[1] + "  ") and not DECLARED.match(more) and "→" in more and " = " not in more):
                    whole += " " + more.strip()
                else:
                    break
            result = re.split(r" → ", whole)[-1]
            fact = bool(re.search(r"≡|≤|<|≢|⊥|×|↔|IsTrue|⊎", result)) or result[:1].isupper() and not re.match(r"(Type|List|Option|Bool|Registers|Cipher|Figures|ℕ|ℤ|Result|Answer|Outcome|Entry|Event|Sender|Receiver|Marks|State|Polynomial|Request)\b", result)
            field = m[1] != ""
            kind = "lemma" if fact and not field else "definition"
            if found.get(name) != "definition":
                found[name] = kind
    return found


def spelled(names):
    table = {n: n.replace("-", "_") for n, kind in names.items() if kind == "definition"}
    known = set(table.values()) | JOINED
    for path in files("crates/*/specs/**/*.antt"):
        for line in read(path).split("\n"):
            m = DECLARED.match(COMMENT.sub("", line))
            if m:
                known.add(table.get(m[2], m[2]))
    for name, kind in names.items():
        if kind == "definition":
            continue
        parts = ["get_or" if part == "getD" else part for part in name.split("-")]
        pieces, at = [], 0
        while at < len(parts):
            for end in range(len(parts), at, -1):
                word = "_".join(parts[at:end])
                if word in known:
                    pieces.append((word, True))
                    at = end
                    break
            else:
                pieces.append((parts[at], False))
                at += 1
        new = pieces[0][0]
        for (_, left), (word, right) in zip(pieces, pieces[1:]):
            new += ("-" if left and right else "_") + word
        table[name] = new
    table.update(GIVEN)
    return {o: n for o, n in table.items() if o != n}


def turn(text, table):
    """The text with each name of the table turned, but for the fields that the check makes: those behind `w.` and the first ones behind `c.`."""
    def one(m):
        made = re.search(r"(?<![^\s(){},;@])(?:w|c)\.$", text[:m.start()])
        return m[0] if made else table.get(m[0], m[0])
    return TOKEN.sub(one, text)


def turn_rt(text, table):
    def one(m):
        if m.lastgroup == "text":
            return m[0]
        if m.lastgroup == "comment":
            return re.sub(r"`[^`\n]*`", lambda s: turn(s[0].strip("`"), table).join("``"), m[0])
        return turn(m[0], table)
    return RT_PARTS.sub(one, text)


def turn_edit(text, table):
    return "\n".join(turn_rt(line, table) if line.startswith(("old:", "new:")) else line for line in text.split("\n"))


def turn_antt(text, table):
    out = []
    for line in text.split("\n"):
        m = COMMENT.search(line)
        code, said = (line[:m.start()], line[m.start():]) if m else (line, "")
        said = re.sub(r"`[^`\n]*`", lambda s: turn(s[0].strip("`"), table).join("``"), said)
        out.append(turn(code, table) + said)
    return "\n".join(out)


def main():
    check = "--check" in sys.argv
    names = declared()
    table = spelled(names)
    by_new = {}
    for old, new in table.items():
        by_new.setdefault(new, []).append(old)
    for new, olds in sorted(by_new.items()):
        if len(olds) > 1:
            print(f"together: {', '.join(olds)} -> {new}")
    kinds = (("crates/*/specs/**/*.antt", turn_antt), ("crates/*/proofs/**/*.antt", turn_antt), ("crates/*/src/**/*.rt", turn_rt), ("crates/*/must-fail/*.edit", turn_edit))
    turned = 0
    for pattern, by in kinds:
        for path in files(pattern):
            old = read(path)
            new = by(old, table)
            if new == old:
                continue
            turned += 1
            here = set(TOKEN.findall(old))
            for o, n in table.items():
                if o in here and n in here:
                    print(f"stands already: {path}: {n} beside {o}")
            if not check:
                with open(path, "w", encoding="utf-8") as f:
                    f.write(new)
    if check:
        for old, new in sorted(table.items()):
            print(f"{names.get(old, 'given')}\t{old}\t{new}")
    print(f"{len(table)} names, {turned} files")


if __name__ == "__main__":
    main()
