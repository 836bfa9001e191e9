#!/usr/bin/env python3
"""Spells the repository's own definitions and lemmas as today's Rattle spells its own: words in snake case, types and facts in camel
case, an apostrophe for a prime. Run once, at the top, right after the toolchain's port.py. A second run changes nothing.

What turns, wherever it stands as a whole name:
  - each name that a file of crates/*/specs or crates/*/proofs declares at its top, as a constructor or as a field, and that begins with
    a small letter and has a capital, a dash or a prime inside: `scanNext` becomes `scan_next`, `take-first` `take_first`. In
    Proof.antt alone nothing is declared for others, so only names of other files turn there;
  - a definition `x` whose lemma has the name `x` by now: the lemma gets `_lem` behind it;
  - names in comments: between backquotes, where a file's first lines list what it has, and words with a capital inside;
  - the same names in README.md, docs/*.md and harness/README.md between backquotes, and in crates/*/must-fail/*.edit;
  - the crate `unicode`, whose name the toolchain has a library of, becomes `scalars`.
"""
import collections
import os
import re
import sys

CRATE = {"unicode": "scalars"}
WORD = re.compile(r"[^\s(){}.;,@\"«»`:λ]+")
DECLARED = re.compile(r"^ *(?:(?:abbrev|pub|unfoldable) )*([^\s(){}.;,@\"«»:]+)(?: \{[^{}\n]*\})* : ")
RULESET = re.compile(r"^ *(?:pub )?ruleset ([^\s]+) =")
# Names that other files' goals and steps may have: they are the toolchain's.
MADE = re.compile(r"(?:loop|returns|requires|add|sub|mul|cast|decreases|invariant)(?:-|$)")


def files(*ends):
    for folder, dirs, names in os.walk("crates"):
        dirs[:] = sorted(d for d in dirs if d != "out")
        for name in sorted(names):
            if name.endswith(ends):
                yield os.path.join(folder, name)


def spelled(name):
    name = re.sub(r"(?<=[a-z0-9])[A-Z]", lambda m: "_" + m[0].lower(), name).replace("′", "'")
    return name.replace("-", "_")


def table():
    of = collections.defaultdict(set)
    top = set()
    for path in files(".antt"):
        if path.endswith("Proof.antt"):
            continue
        kind = "definition" if "/specs/" in path else "lemma"
        for line in open(path):
            found = DECLARED.match(line) or RULESET.match(line)
            if found and not line.lstrip().startswith("--"):
                of[found[1]].add(kind)
                if not line.startswith(" "):
                    top.add(found[1])
    turned = {}
    taken = collections.defaultdict(set)
    for name in of:
        taken[spelled(name)].add(name)
    theirs = library()
    for name in sorted(of):
        if name in theirs or MADE.match(name):
            continue
        if spelled(name) == name and name in top and of[name] == {"lemma"} and len(taken[name]) > 1:
            turned[name] = name + "_lem"
        if not re.search(r"[A-Z\-′]", name[1:]) or not re.match(r"[a-z]", name):
            continue
        new = spelled(name)
        if len(taken[new]) > 1 and of[name] == {"lemma"}:
            others = [o for o in taken[new] if o != name]
            if any("definition" in of[o] for o in others) or any(o == new for o in others):
                new += "_lem"
            elif any(re.search(r"[a-z0-9][A-Z]", o) for o in others) and "-" in name:
                new += "_lem"
        turned[name] = new
    met = collections.defaultdict(set)
    for name in of:
        met[turned.get(name, name)].add(name)
    for new, names in sorted(met.items()):
        if len(names) > 1:
            print(f"look: {', '.join(sorted(names))} fall together as {new}", file=sys.stderr)
    return turned


def library():
    """Names that some file takes from a library of the toolchain: they are not ours to turn."""
    found = set()
    for path in files(".antt", ".rt"):
        for module, names in re.findall(r"\buse ([\w.'-]+)\.\{([^}]*)\}", open(path).read()):
            if not module.startswith("Rattle.") or module.startswith("Rattle.std."):
                found |= set(re.split(r"[,\s]+", names))
    return found


def words(text, turned):
    return WORD.sub(lambda m: turned.get(m[0], m[0]), text)


def comment(text, turned):
    text = re.sub(r"`[^`\n]*`", lambda m: words(m[0], turned), text)
    head = re.match(r"^(--     ?)((?:[^\s,]+, )*[^\s,]+)((?:   *| \S).*)?$", text, re.S)
    if head:
        text = head[1] + words(head[2], turned) + (head[3] or "")
    return WORD.sub(lambda m: turned[m[0]] if m[0] in turned and re.search(r"[a-z0-9][A-Z]", m[0]) else m[0], text)


def crate_names(text):
    for old, new in CRATE.items():
        text = re.sub(rf"\bRattle\.{old}\.", f"Rattle.{new}.", text)
        text = re.sub(rf"\buse {old}::", f"use {new}::", text)
        text = re.sub(rf"(?<![\w:]){old}::", f"{new}::", text)
    return text


def antt(text, turned):
    out = []
    for line in text.split("\n"):
        at = re.search(r"(?:^|(?<=\s))--(?:\s|$)", line)
        code, said = (line[: at.start()], line[at.start() :]) if at else (line, "")
        out.append(words(code, turned) + comment(said, turned))
    return "\n".join(out)


def rust(text, turned):
    """Clauses, ghost items and comments' code spans of a .rt file; code keeps its names."""
    out, i = [], 0
    opening = re.compile(r"//[^\n]*|\bghost use\b[^;]*;|\b(?:requires|ensures)\*?(?: \w+)? \{|\bghost \w+(?::| =) \{|\busing\([^)]*\)")
    for m in iter(lambda: opening.search(text, i), None):
        out.append(text[i : m.start()])
        if m[0].startswith("//"):
            out.append(re.sub(r"`[^`\n]*`", lambda s: words(s[0], turned), m[0]))
            i = m.end()
        elif m[0].endswith("{"):
            deep, j = 1, m.end()
            while deep:
                deep += {"{": 1, "}": -1}.get(text[j], 0)
                j += 1
            out.append(m[0] + words(text[m.end() : j], turned))
            i = j
        else:
            out.append(words(m[0], turned))
            i = m.end()
    out.append(text[i:])
    return "".join(out)


def page(text, turned):
    return re.sub(r"`[^`\n]*`", lambda m: words(m[0], turned), text)


def edit(text, turned):
    lines = text.split("\n")
    of_antt = any(re.match(r"file: .*\.antt", l) for l in lines)
    out = []
    for line in lines:
        m = re.match(r"(old|new): (.*)", line, re.S)
        if m:
            line = m[1] + ": " + (words(m[2], turned) if of_antt or "ensures" in line or "requires" in line or "ghost" in line else m[2])
        out.append(line)
    return "\n".join(out)


def write(path, turn):
    old = open(path).read()
    new = crate_names(turn(old))
    if new != old:
        open(path, "w").write(new)


def main():
    turned = table()
    for path in list(files(".antt")):
        write(path, lambda t: antt(t, turned))
    for path in list(files(".rt")):
        write(path, lambda t: rust(t, turned))
    for path in list(files(".edit")):
        write(path, lambda t: edit(t, turned))
    for path in ["README.md", "harness/README.md", *(os.path.join("docs", f) for f in sorted(os.listdir("docs")) if f.endswith(".md"))]:
        write(path, lambda t: page(t, turned))
    for old, new in CRATE.items():
        if os.path.isdir(f"crates/{old}"):
            os.rename(f"crates/{old}", f"crates/{new}")
        write("crates.txt", lambda t: re.sub(rf"(?m)(^|(?<= )){old}(?=[:\s]|$)", new, t))
    print(f"{len(turned)} names")


if __name__ == "__main__":
    main()
