#!/usr/bin/env python3
"""Counts, in the code of a tree, the places that docs/DESIGN-PASS.md lists.

    python3 tools/design_counts.py [TREE] [--places]

TREE is a checkout, by default this one; --places prints each place besides the counts.
"""
import glob
import re
import sys

args = [a for a in sys.argv[1:] if not a.startswith("--")]
root = args[0] if args else "."
show = "--places" in sys.argv


def sources():
    for path in sorted(glob.glob(root + "/crates/*/src/*.rt")):
        yield path.split("/crates/")[1], open(path, encoding="utf-8").read()


def tell(title, places):
    print(f"{len(places):4}  {title}")
    if show:
        for place in places:
            print("        " + place)


def matching(pattern):
    return [
        f"{name}:{text[: m.start()].count(chr(10)) + 1} {m.group(0).strip()}"
        for name, text in sources()
        for m in re.finditer(pattern, text, re.M)
    ]


def loops():
    """Each loop: a `for`, a `while` that steps a variable of its head by a constant, or another."""
    found = {"for": [], "counted": [], "other": []}
    for name, text in sources():
        lines = text.split("\n")
        for i, line in enumerate(lines):
            m = re.match(r"(\s*)(while|loop|for)\b(.*)", line)
            if not m:
                continue
            indent, word, head = m.groups()
            end = next(k for k in range(i + 1, len(lines)) if lines[k].startswith(indent + "}"))
            body = "\n".join(lines[i + 1 : end])
            place = f"{name}:{i + 1} {line.strip()}"
            if word == "for":
                found["for"].append(place)
                continue
            stepped = any(
                re.search(rf"(?<![\w.]){v} (= {v} [+-]|[+-]=) (1|2|BLOCK);", body)
                for v in re.findall(r"\b[a-z_][a-z_0-9]*\b", head)
            )
            found["counted" if stepped else "other"].append(place)
    return found


def parameters():
    for name, text in sources():
        for m in re.finditer(r"\bfn (\w+)(?:<[^>]*>)?\(([^)]*)\)", text):
            names = {p.split(":")[0].strip() for p in m.group(2).replace("\n", " ").split(",")}
            yield f"{name} {m.group(1)}", names


print("point 1")
tell("enums", matching(r"^\s*(pub )?enum \w+"))
tell("fields that tell how it went, beside a value", matching(r"^\s*pub (status|progress|ending|answer): \w+(<\(\)>)?,"))
tell("directions as numbers", matching(r"\bdirection: (usize|u64)\b"))
print("point 3")
by_kind = loops()
tell("loops that step an index by hand", by_kind["counted"])
tell("other while and loop", by_kind["other"])
tell("for", by_kind["for"])
print("point 4")
tell("calls of wide", matching(r"\bwide\("))
tell("x = x + ..", matching(r"\b(\w+) = \1 [+-] "))
tell("field: field", matching(r"\b(\w+): \1,?$"))
tell("derive(Clone, Copy) with nothing else", matching(r"derive\(Clone, Copy\)\]"))
print("point 5: functions with these parameters")
for group in [
    "nodes sizes values ready cells",
    "nodes sizes variables",
    "nodes sizes",
    "equations lengths",
    "from end",
    "known s span",
]:
    tell(group, [place for place, names in parameters() if set(group.split()) <= names])
print("point 8")


def proofs(pattern, text_pattern=None):
    places = []
    for path in sorted(glob.glob(root + "/crates/*/proofs/**/" + pattern, recursive=True)):
        if text_pattern is None:
            places.append(path)
        else:
            places += [path] * len(re.findall(text_pattern, open(path, encoding="utf-8").read(), re.M))
    return places


answers = proofs("Answers.antt", r"^pub [^ ]+ : goal\.")
cited = proofs("Answers.antt", r"c\.[\w-]+-\d+\.given|-own\b")
print(f"{len(answers):4}  answers")
print(f"{len(cited):4}  names of Rattle's own that answers cite")
lines = sum(open(p, encoding="utf-8").read().count("\n") for p in proofs("*.antt"))
print(f"{lines:4}  lines of proofs")
