#!/usr/bin/env python3
"""Respells the definitions and lemmas of this repository: words are joined by '_', types are in camel case.

Run once at the top of the repository, after the port's own scripts and before any edit by hand. `is-element` becomes `is_element`, and
`Well-formed` becomes `WellFormed`. Only names that an .antt file of this repository defines are turned, wherever they stand in an .antt file
or in a clause of an .rt file; names that the library or the check makes keep their dashes, as do names that end in an operator (`runs-++`
becomes nothing else, `still-read-++` becomes `still_read-++`). Prints names that fall together.
"""
import os
import re
import sys

TOKEN = r"[^\s(){}\[\],.;:=λ↦|«»@\"∷]+"
SIGNATURE = re.compile(rf"^\s*(?:(?:abbrev|unfoldable|pub|record|data)\s+)*({TOKEN}(?:\s+{TOKEN})*)\s*(?:\([^)]*\)\s*|\{{[^}}]*\}}\s*)*:\s(.*)$")
TYPE = re.compile(rf"^\s*(?:abbrev\s+|unfoldable\s+|pub\s+)*(?:record|data)\s+(?:pub\s+)?({TOKEN})")
WORDS = re.compile(r"(?<=[^\W_])-(?=\w)|(?<=[^\W_]['₀-₉])-(?=\w)")
MADE = ("goal.", "goals.", "needs.", "rules.")
PER_FUNCTION = {"Answers.antt", "Choices.antt", "Invariants.antt", "Proof.antt"}
KEYWORDS = {"use", "pub", "abbrev", "unfoldable", "record", "data", "where", "let", "in", "elim", "module", "mod", "λ"}


def files(ending):
    for top, dirs, names in os.walk("crates"):
        dirs[:] = sorted(d for d in dirs if d not in ("out", "must-fail", "data"))
        for name in sorted(names):
            if name.endswith(ending):
                yield os.path.join(top, name)


def read(path):
    with open(path, encoding="utf-8") as f:
        return f.read()


def without_comment(line):
    return re.sub(r"(?:^|\s)--.*", "", line)


def owned():
    """The names that the repository defines: each with the files that define it."""
    names = {}
    for path in files(".antt"):
        answers = os.path.basename(path) in PER_FUNCTION
        for line in read(path).split("\n"):
            line = without_comment(line)
            found = TYPE.match(line)
            here = [found.group(1)] if found else []
            found = SIGNATURE.match(line)
            if found and not (answers and found.group(2).lstrip().startswith(MADE)):
                here += [w for w in found.group(1).split() if w not in KEYWORDS]
            for name in here:
                names.setdefault(name, set()).add(path)
    return names


def respelt(name):
    if name[0].isupper():
        first, *rest = WORDS.split(name)
        return first + "".join(w[:1].upper() + w[1:] for w in rest)
    return WORDS.sub("_", name)


def foreign(text):
    """The names that a file brings in from elsewhere."""
    mine = {f"Rattle.{c}." for c in os.listdir("crates")}
    names = set()
    for found in re.finditer(r"\buse\s+([\w.'-]+)\.\{([^}]*)\}", text):
        if not any((found.group(1) + ".").startswith(m) for m in mine):
            names |= {w.split(" as ")[-1].strip() for w in found.group(2).split(",")}
    return names


def turn(text, table, ghost_only):
    kept = foreign(text)
    out = []
    for line in text.split("\n"):
        mark = "//" if ghost_only else "--"
        cut = re.search(rf"(?:^|\s){mark}", line)
        code, comment = (line[: cut.start()], line[cut.start():]) if cut else (line, "")
        parts = re.split(r'("(?:[^"\\]|\\.)*")', code) if ghost_only else [code]
        for k in range(0, len(parts), 2):
            parts[k] = re.sub(TOKEN, lambda m: table[m.group(0)] if m.group(0) in table and m.group(0) not in kept else m.group(0), parts[k])
        out.append("".join(parts) + comment)
    return "\n".join(out)


def main():
    names = owned()
    table = {n: respelt(n) for n in names if respelt(n) != n}
    falls = 0
    for old, new in sorted(table.items()):
        others = [o for o in names if o != old and (o == new or table.get(o) == new)]
        if others:
            falls += 1
            print(f"falls together: {old} and {', '.join(others)} as {new}: {sorted(names[old])[0]}, {sorted(names[others[0]])[0]}")
    changed = 0
    for ending, ghost_only in ((".antt", False), (".rt", True)):
        for path in files(ending):
            old = read(path)
            new = turn(old, table, ghost_only)
            if new != old:
                changed += 1
                with open(path, "w", encoding="utf-8") as f:
                    f.write(new)
    print(f"{len(table)} names respelt in {changed} files, {falls} fall together")
    return 0


if __name__ == "__main__":
    sys.exit(main())
