#!/usr/bin/env python3
"""Writes the proof of a function that is one big `match` on a number c, against its table of rows in specs/.

    tools/match_proof.py          writes crates/CRATE/proofs/FUNCTION/Proof.antt for each function of CASES
    tools/match_proof.py check    compares each with the file in the repository, and ends with 1 where one differs

The ways through the match and their answers are read off the function's lowered code, which `rt check --generated FOLDER` writes
once the crates under CRATE are proved. A way that is an interval is tested against the rows by one computed test; an arm with single
numbers by a test of its own.
"""
import re
import subprocess
import sys
import tempfile
from pathlib import Path
from typing import NamedTuple

ROOT = Path(__file__).resolve().parent.parent


class Case(NamedTuple):
    """A function, and what its proof names."""
    crate: str
    function: str
    kind: str  # the type of the answer
    variants: list  # its variants; none of a number
    rows: str  # the table
    spec: str  # the definition, with what it takes before c
    default: str  # the answer where no row has c
    same: str  # the test that two answers are equal
    sound: str  # its law
    imports: list


CASES = [
    Case("replace", "replace", "Replaced", ["One", "Two", "Three"], "replacements", "replace_of false", "One c", "same_replaced",
         "same_replaced→eq", [
             "use lib.Dec.{T}",
             "use mathlib.Core.Bool.{false}",
             "use Rattle.replace.specs.declared.Replaced.{Replaced}",
             "use Rattle.replace.specs.declared.Replaced.TheVariants.{One, Two, Three}",
             "use Rattle.replace.specs.Replace.{replace_of, replacements}",
             "use Rattle.replace.proofs.Same.{same_replaced, same_replaced→eq}",
             "use Rattle.replace.proofs.Rows.",
         ]),
    Case("check_char", "reason", "ℕ", [], "refusals", "reason_of", "0", "eqb", "eqb→eq", [
        "use lib.Dec.{T, eqb, eqb→eq}",
        "use Rattle.check_char.specs.Check.{reason_of, refusals}",
        "use Rattle.replace.proofs.Rows.",
    ]),
]
# What the last import takes.
ROWS = "{points, points_at, only, finds_one, Way, finding, outside_all, nth, Holds, all_right, way_holds}"


def lowered(crate, function):
    """The body of a function: a word is a string, what stands in parentheses a list, without the module that has the words."""
    with tempfile.TemporaryDirectory() as folder:
        asked = subprocess.run(["rt", "check", "--generated", folder], cwd=ROOT / "crates" / crate, capture_output=True, text=True)
        written = Path(folder) / f"Rattle-{crate}-proofs" / function / "Code" / "Mir.antt"
        if not written.exists():
            sys.exit(f"tools/match_proof.py: rt check {crate} --generated wrote no code of {function}\n{asked.stdout}{asked.stderr}")
        code = written.read_text().replace("Syntax.", "")
    bodies = dict(re.findall(r"(?m)^abbrev pub \S+ : Body\n(\S+) =((?:.|\n)*?)(?=^\S|\Z)", code))
    whole = re.search(r"(?m)^  body = (\S+);$", code)[1]
    return spelled_out(read(bodies[whole]), bodies)


def read(text):
    """A term: its words, each argument in parentheses a list of its own."""
    stack = [[]]
    for word in re.findall(r"[()]|[^\s()]+", text):
        if word == "(":
            stack.append([])
        elif word == ")":
            done = stack.pop()
            stack[-1].append(done)
        else:
            stack[-1].append(word)
    term = stack[0]
    return term[0] if len(term) == 1 else term


def spelled_out(term, bodies):
    """The term with each part that has a name of its own written out."""
    if isinstance(term, list):
        return [spelled_out(part, bodies) for part in term]
    return spelled_out(read(bodies[term]), bodies) if term in bodies else term


def items(term):
    """The items of a list of the lowered code."""
    while term != "List.[]":
        _, first, term = term
        yield first


class Way:
    """A way through the match so far: its bounds, the arm with single numbers that it took, the locals that were set."""

    def __init__(self, low=0, high=2**32, keys=None, arm=None, local=None):
        self.low, self.high, self.keys, self.arm, self.local = low, high, keys, arm, local or {}

    def but(self, **changes):
        return Way(**{**vars(self), **changes})


C = ["copy", ["place", "1", "List.[]"]]
FALLS, RETURNS = "falls", "returns"


def walk(code, way):
    """Where the code leads on a way: pairs of an end and a way, in the order in which the check asks for them. An end is
    FALLS, RETURNS or the number of blocks that are left."""
    if code == "skip":
        return [(FALLS, way)]
    if code == "return":
        return [(RETURNS, way)]
    kind, *parts = code
    if kind == "exit":
        return [(int(parts[0]), way)]
    if kind == "assign":
        return [(FALLS, way.but(local={**way.local, parts[0][1]: parts[1]}))]
    if kind == "seq":
        ends = walk(parts[0], way)
        left = [end for end in ends if end[0] != FALLS]
        return left + [end for how, falls in ends if how == FALLS for end in walk(parts[1], falls)]
    if kind == "block":
        inside = {0: FALLS, FALLS: FALLS, RETURNS: RETURNS}
        return [(inside[how] if how in inside else how - 1, end) for how, end in walk(parts[0], way)]
    if kind == "cond":
        op, less, left, right = way.local[parts[0][1][1]]
        assert (op, less, left) == ("op2", ["lt", "unsigned"], C) and right[0] in ("int", "int_big"), code
        bound = int(right[2])
        yes, no = way.but(high=min(way.high, bound)), way.but(low=max(way.low, bound))
        return walk(parts[1], yes) + walk(parts[2], no)
    if kind == "switch":
        assert parts[0] == C, code
        return walk_arms(parts[1], way, 1)
    sys.exit(f"tools/match_proof.py: unknown in the lowered code: {kind}")


def walk_arms(arms, way, number):
    if arms[0] == "default":
        return walk(arms[1], way)
    _, keys, body, others = arms
    mine = way.but(keys=[int(key) for key in items(keys)], arm=number)
    return walk(body, mine) + walk_arms(others, way, number + 1)


def answer(way, variants):
    """What the way returns, as a term of the definitions."""
    def number(value):
        return "c" if value == C else hex(int(value[2])) if variants else value[2]

    kind, value = way.local["0"]
    if kind == "rv_opd" and value[0] == "copy":
        kind, value = way.local[value[1][1]]
    if kind == "rv_opd":
        return number(value)
    tag, *fields = items(value)
    return " ".join([variants[int(tag[2])], *map(number, fields)])


def constant(source, name):
    return re.search(rf"const {name}: u32 = (0x[0-9a-f]+);", source)[1]


def named_arms(crate, function):
    """For each number that stands alone in an arm, the name by which the toolchain calls the arm, after its first alternative, and how many
    alternatives the arm has."""
    source = (ROOT / "crates" / crate / "src" / "lib.rt").read_text()
    body = re.sub(r"//.*", "", source[source.index(f"fn {function}("):])
    # A name of a character counts as its number.
    named = (ROOT / "crates" / "scalars" / "src" / "lib.rt").read_text()
    body = re.sub(r"\b[A-Z]+\b(?=[ |\n]*(?:\||=>))", lambda name: constant(named, name[0]), body[:body.index("_ =>")])
    number = r"0x[0-9a-f]+(?:\.\.=0x[0-9a-f]+)?"
    names = {}
    for arm in re.findall(rf"({number}(?:\s*\|\s*{number})*)\s*=>", body):
        parts = [[int(bound, 16) for bound in part.split("..=")] for part in re.findall(number, arm)]
        name = "in-" + "-to-".join(map(str, parts[0]))
        names.update({part[0]: (name, len(parts)) for part in parts if len(part) == 1})
    return names


def given(way, arms):
    """What an arm with single numbers gives: that c is its number, or one of them."""
    arm, parts = arms[way.keys[0]]
    return f"c.{arm}.is" if len(way.keys) == parts else f"c.{arm}.{arm}-own.keys{way.arm}"


def listed(numbers):
    return "(" + " ∷ ".join(map(hex, numbers)) + " ∷ [])"


def proof(case):
    """The text of a proof."""
    crate, function, kind, variants, rows, spec, default, same, sound, imports = case
    found = [way for _, way in walk(lowered(crate, function), Way())]
    keyed = sorted(((way.arm, way.keys) for way in found if way.keys), reverse=True)
    ways, answers, arms = [], [], named_arms(crate, function)
    for way in found:
        if way.keys:
            answers.append(f"(λ c. key {listed(way.keys)} _ _ tt {given(way, arms)})")
            continue
        answers.append(f"(λ c. way {len(ways)} (search) (omega arith))")
        gives = answer(way, variants)
        term = f"({gives})" if variants else gives
        bounds = f"{way.low:#x} {way.high:#x}"
        ways.append(f"outside_all {bounds}" if gives == default else f"finding {bounds} {term}")
    here = "r.before.args.c"
    other = re.sub(r"\bc\b", here, default)
    proofs = f"Rattle.{crate}.proofs"
    return "\n".join([
        "-- GENERATED by tools/match_proof.py from the lowered code of src/lib.rt. Do not edit: run the script.",
        f"-- `{crate}::{function}` meets its contract: the ways through the match that are intervals pass one test over the rows.",
        "use Prim.Native.Nat.{ℕ}",
        "use mathlib.Core.Path.{◌≡◌}",
        "use mathlib.Core.List.{List, [], ◌∷◌}",
        "use native.Mathlib.Omega.{arith}",
        "use types.Run.{OneOf}",
        *imports[:-1],
        imports[-1] + ROWS,
        f"use {proofs}.{function}.Statement.{{statement}}",
        f"use {proofs}.{function}.Tie as tie",
        "",
        "-- the keys of the arms, from the last arm to the first",
        "abbrev keys : List (List ℕ)",
        "keys =",
        *(f"    {listed(keys)} ∷" for _, keys in keyed),
        "    []",
        "",
        "-- the other ways, in the order of the needs",
        f"abbrev ways : List (Way {kind})",
        "ways =",
        *("    " + " ∷ ".join(ways[j:j + 3]) + " ∷" for j in range(0, len(ways), 3)),
        "    []",
        "",
        f"right : T (all_right {same} {sound} {rows} keys ways)",
        "right = tt",
        "",
        f"key : (ks : List ℕ) (c : ℕ) (a : {kind}) → T (only {same} {sound} a {rows} (points ks)) → OneOf ks c → a ≡ {spec} c",
        f"unfolding {spec.split()[0]}",
        f"key ks c a t o = finds_one {same} {sound} a ({default}) {rows} (points ks) t (points_at ks o)",
        "",
        f"way : (i : ℕ) (r : tie.In_default-1) → Holds (nth ways i) {here} ({other}) ({spec} {here})",
        f"unfolding {spec.split()[0]}",
        f"way i r = way_holds {same} {sound} {rows} keys ways {here} ({other}) right r.in_default-1.rest i",
        "",
        f"pub {function}_spec : {{M : Type 1}} → statement M",
        f"{function}_spec =",
        "    tie.close",
        "    (tie.spec",
        "\n".join("    " + a for a in answers) + ")",
        "",
    ])


def main():
    if sys.argv[1:] not in ([], ["check"]):
        sys.exit("usage: tools/match_proof.py [check]")
    made = {ROOT / "crates" / case.crate / "proofs" / case.function / "Proof.antt": proof(case) for case in CASES}
    for path, text in made.items():
        name = path.relative_to(ROOT)
        if not sys.argv[1:]:
            path.write_text(text)
            continue
        there = path.read_text()
        if there != text:
            pairs = enumerate(zip(there.split("\n"), text.split("\n")), 1)
            line = next((at for at, (one, other) in pairs if one != other), "the end")
            sys.exit(f"{name}: not as tools/match_proof.py writes it, first at line {line}")
        print(f"{name}: as generated")


main()
