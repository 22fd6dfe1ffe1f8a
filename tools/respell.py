#!/usr/bin/env python3
"""Brings the repository's own definitions, lemmas, fields and constructors to snake case: usage: tools/respell.py, at the top, once, after the kit's port.py.

A name is respelled where it is declared in a file of specs/ or proofs/, or is a local name there. Names that Rattle makes (goals, steps) and names that are
imported from the library keep their spelling. `Contracts`, a module of specs/, becomes `ForContracts`, since Rattle makes a module `contracts` there.
"""
import glob
import os
import re
import subprocess
import sys

EDGE = r"\s(){}\[\];,.:\"`"
TOKEN = re.compile(r"[^" + EDGE + r"]+")
DECLARED = re.compile(r"^\s*(?:pub |abbrev |unfoldable |private |data |record |ruleset )*([^" + EDGE + r"λ→]+)\s*[:({]")
ALIAS = re.compile(r"\bas ([^" + EDGE + r"]+)")
LIBRARY = re.compile(r"^(?:pub )?use (?!Rattle\.(?:%s)\.)([\w.+]+)\.\{([^}]*)\}" % "|".join(sorted(os.listdir("crates"))))
GENERATED = re.compile(r"^(Need-|Lts-|enum-|invariant-|decreases-|loop-test)|Inv-loop|-lts$")
WORDS = {"Result·map": "result_map", "Iff·trans": "Iff.trans", "Iff·and": "Iff.and", "Iff·not": "Iff.not"}


def made(path):
    """Whether a file proves a function, so that its names are those of goals and steps."""
    with open(path, encoding="utf-8") as f:
        return ".Tie as " in f.read()


def code_of(line):
    return "" if line.lstrip().startswith("--") else line.split(" -- ")[0]


def spelled(name):
    return name.replace("getD", "get_or").replace("-", "_")


def names(files):
    declared, local, library = set(), set(), set()
    for path in files:
        by_rattle = made(path)
        with open(path, encoding="utf-8") as f:
            for line in f:
                code = code_of(line)
                from_library = LIBRARY.match(code)
                if from_library:
                    library |= {w for w in TOKEN.findall(from_library[2]) if "-" in w}
                    continue
                m = DECLARED.match(code)
                if m and "-" in m[1] and not (by_rattle and "tie." in code):
                    declared.add(m[1])
                if not by_rattle:
                    local |= {t for t in TOKEN.findall(code) if re.search(r"\w'?-\w", t)} | {a for a in ALIAS.findall(code) if "-" in a}
    return declared, local, library


def known_to_library(kit):
    """The names with a dash that the library has, among them those of its fields, which no import names."""
    found = set()
    for path in glob.glob(os.path.join(kit, "rattle", "**", "*.antt"), recursive=True):
        with open(path, encoding="utf-8", errors="replace") as f:
            for line in f:
                found |= {t for t in TOKEN.findall(code_of(line)) if "-" in t}
    return found


def main():
    kit = os.path.dirname(subprocess.run(["rt", "doc"], capture_output=True, text=True, check=True).stdout.strip())
    antt = sorted(glob.glob("crates/*/specs/**/*.antt", recursive=True) + glob.glob("crates/*/proofs/**/*.antt", recursive=True))
    declared, local, library = names(antt)
    local = {t for t in local - declared - known_to_library(kit) if not GENERATED.search(t) and not re.match(r"[A-Z]", t)}
    # A type keeps its capital and its dash (`Term-discrete`); L1 and P1 are no types.
    typed = re.compile(r"[A-Z](?!\d)")
    clash = declared & library
    renamed = {n: spelled(n) for n in declared if not typed.match(n) and not GENERATED.search(n)}
    in_lemmas = renamed | {n: spelled(n) for n in local}

    def turn(text, table, keep):
        return TOKEN.sub(lambda m: WORDS.get(m[0]) or (m[0] if m[0] in keep else table.get(m[0], m[0])), text)

    def quoted(text, table):
        return re.sub(r"`[^`\n]*`", lambda m: turn(m[0], table, ()), text)

    for path in antt:
        with open(path, encoding="utf-8") as f:
            lines = f.read().splitlines(keepends=True)
        by_rattle = made(path)
        table = renamed if by_rattle else in_lemmas
        keep = set()
        for line in lines:
            m = LIBRARY.match(code_of(line))
            if m:
                keep |= clash & set(TOKEN.findall(m[2]))
        out = []
        for line in lines:
            comment = line.lstrip().startswith("--")
            if LIBRARY.match(line) and "·" not in line:
                out.append(line)
            else:
                out.append(quoted(line, table) if comment else turn(line, table, keep))
        with open(path, "w", encoding="utf-8") as f:
            f.write("".join(out))
    for path in sorted(glob.glob("crates/*/src/**/*.rt", recursive=True)):
        with open(path, encoding="utf-8") as f:
            lines = f.read().splitlines(keepends=True)
        out = []
        for line in lines:
            if line.lstrip().startswith("//"):
                out.append(quoted(line, renamed))
            else:
                out.append("".join(part if part.startswith('"') else turn(part, renamed, ()) for part in re.split(r'(b?"(?:[^"\\]|\\.)*")', line)))
        with open(path, "w", encoding="utf-8") as f:
            f.write("".join(out))
    for path in sorted(glob.glob("crates/*/must-fail/*.edit")):
        with open(path, encoding="utf-8") as f:
            lines = f.read().splitlines(keepends=True)
        with open(path, "w", encoding="utf-8") as f:
            f.write("".join(turn(l, in_lemmas, ()) if re.match(r"(old|new): ", l) else quoted(l, renamed) for l in lines))
    for path in ["README.md"] + sorted(glob.glob("docs/**/*.md", recursive=True)):
        if os.path.basename(path).startswith("PORT"):
            continue
        with open(path, encoding="utf-8") as f:
            text = f.read()
        with open(path, "w", encoding="utf-8") as f:
            f.write(quoted(text, renamed))

    # The module of what contracts cite.
    for path in sorted(glob.glob("crates/*/specs/Contracts.antt")):
        base = path[: -len(".antt")]
        subprocess.run(["git", "mv", path, base[: -len("Contracts")] + "ForContracts.antt"], check=True)
        if os.path.isdir(base):
            subprocess.run(["git", "mv", base, base[: -len("Contracts")] + "ForContracts"], check=True)
    for path in glob.glob("crates/*/**/*.antt", recursive=True) + glob.glob("crates/*/src/**/*.rt", recursive=True) + glob.glob("crates/*/must-fail/*.edit"):
        with open(path, encoding="utf-8") as f:
            text = f.read()
        new = re.sub(r"\bspecs\.Contracts\b", "specs.ForContracts", text)
        new = re.sub(r"\bspecs/Contracts\b", "specs/ForContracts", new)
        if path.endswith("specs/Lib.antt"):
            new = re.sub(r"(?m)^pub mod Contracts$", "pub mod ForContracts", new)
        if new != text:
            with open(path, "w", encoding="utf-8") as f:
                f.write(new)
    # `ground` is a tactic's name today, and no word of a clause or a definition. What speaks of `get_or` is named after it.
    for path in glob.glob("crates/*/**/*.antt", recursive=True) + glob.glob("crates/*/src/**/*.rt", recursive=True) + glob.glob("crates/*/must-fail/*.edit"):
        with open(path, encoding="utf-8") as f:
            lines = f.read().splitlines(keepends=True)
        new = [l if re.match(r"\s*(--|//|#)", l) else re.sub(r"(?<![\w'])ground(?![\w'])", "is_ground", l) for l in lines]
        new = [re.sub(r"\bget_d_(any|between|map)\b", r"get_or_\1", l) for l in new]
        if new != lines:
            with open(path, "w", encoding="utf-8") as f:
                f.write("".join(new))
    print(f"respell: {len(renamed)} declared names and {len(local)} local ones")


if __name__ == "__main__":
    sys.exit(main())
