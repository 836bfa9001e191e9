#!/usr/bin/env python3
"""Holds the tree to document 01, sentence by sentence, and to those requests of document 02 that docs/REQUESTS.md has (`## A.n`).

    tools/check_documents.py        says what is wrong, or counts what it read
    tools/check_documents.py map    prints each sentence with the items that quote it and the wrong programs that break it

A quotation is what stands between two `"` in a comment of crates/*/specs, proofs or src, or in the line `# Breaks:` of a wrong
program. In it ` .. ` leaves words out, and `'` stands for a `"`; what follows three blanks on a line is a note in the margin.
The item right under the comment (a definition, theorem, function, constant, field) cites the sentences in which the quotation
stands; a comment above no item, as the head of a file, cites nothing, nor does specs/Inner.antt, on which no entry's contract
stands. It fails
  - on words of a sentence that no item quotes, unless NO_PROOF has the sentence or its line is marked (02);
  - on a sentence that one definition alone holds, so that code and definition could be wrong together: besides the definition a law
    has to quote it (an item of proofs/, or a statement of specs/, whose declaration says `.. → Type 0` or has parameters), or an item
    of a file that a theorem ties to another source (TIED), or ALONE has it;
  - on a quotation that stands word for word in neither document. One of three words or more may stand in a file of the Rust
    instead, and one behind the name of another source (OTHERS) on its line is not looked up;
  - on a list of hexadecimal numbers in a sentence, eight or more, that is not quoted whole above a definition of specs/, and on a
    definition under such a quotation that has not these numbers, as 0x.., in this order;
  - on a wrong program that quotes nothing, or a sentence that no item cites;
  - on a name that docs/PROOFS.md cites, as `name` (crate, File) or `function` (crate), and that does not stand there.
Documents and Rust are in ../shared/docs, or where DOCUMENT_01, DOCUMENT_02 and BASIC_TEXT_SRC say. Without them it says NOT
CHECKED, which is a failure where CI is set.
"""
import glob
import os
import re
import sys

ROOT = os.path.dirname(os.path.dirname(os.path.abspath(__file__)))
CRATES = os.path.join(ROOT, "crates")
SHARED = os.path.join(ROOT, "..", "shared", "docs")
DOCUMENT_01 = os.environ.get("DOCUMENT_01", os.path.join(SHARED, "01-scope.md"))
DOCUMENT_02 = os.environ.get("DOCUMENT_02", os.path.join(SHARED, "02-change-requests.md"))
RUST = os.environ.get("BASIC_TEXT_SRC", os.path.join(SHARED, "src"))
PROOFS = os.path.join(ROOT, "docs", "PROOFS.md")
REQUESTS = os.path.join(ROOT, "docs", "REQUESTS.md")
OTHERS = ("RFC 3629", "UAX #29", "UAX #44", "Unicode Standard, D")

# The sentences that owe no proof, by their first words, and why.
NO_PROOF = {
    "Paths name files": "it names the source",
    "Its behaviour decides": "the Rust is compared, not proved: harness/README.md",
    "a difference is recorded": "in docs/DIFFERENCES.md",
    "Characters are hexadecimal": "notation",
    "Inside: the files": "the scope: README.md has the crates",
    "Left out:": "left out here and in the oracle: harness/README.md",
    "Added: the page": "a list of what has its own sentences below",
    "The harness builds the page": "about the harness: harness/src/page.rs",
    "Run: 135 and 136": "run and compared: harness/compare, the kinds cases and write-cases",
    "unicode.rs 79": "the list of files",
    "text_substring.rs": "not ported",
    "We read the code": "about the reader",
    "Each place below": "about the lines that follow, which are quoted",
    "A line marked (02)": "about document 02",
    "Although the proofs": "about the line that follows, which is quoted",
    "When a form can't": "none had to be replaced: docs/DECISIONS.md",
    "Each public entry states": "asked of every contract: README.md, How to read the proofs",
    "For anything left": "nothing is left to the program: the contract of an entry is an equation",
    "Other cases and published": "run and compared: harness/compare",
    "Forty brokers now": "it says what the check of a run is for",
    "Read-only memory is short": "it says what the packing is for; how much is saved: docs/MEASURED.md",
    "Two administration systems": "it says what UTF-16 is for; the two orders are those of ByteOrder (utf16)",
    "The import job plans": "it says what asking is for",
    "Electric vehicles bring": "it says what the option for units is for; samples/batteries.csv",
    "with it on, they are held": "compared with the Rust so changed: harness/README.md",
    "To size imports": "it says what the generator is for: README.md",
}

# The files of specs/ whose definitions a theorem ties to another source, so that no wrong reading of the one passes by itself.
TIED = {
    "scalars/specs/Utf8.antt": "RFC 3629's grammar: grammar, longest (scalars)",
    "page/specs/Clauses.antt": "the test of a page: clauses_of_accepted, accepted_of_clauses (page)",
    "replace/specs/Nonchars.antt": "the list of the Rust: nonchars_are (replace)",
    "text_utils/specs/Uax29.antt": "the properties of UAX #44: start_by_uax29_lem, end_by_uax29_lem (text_utils)",
    "isolate_unassigned/specs/Meaning.antt": "the Rust's two flags: isolate_means (isolate_unassigned)",
    "text_input_parts/specs/PieceSets.antt": "the sets of the steps: parameter_is and the like (text_input_parts)",
    "text_input/specs/Pieces.antt": "the Rust's steps: whole (text_input)",
    "text_input/specs/Streams.antt": "the Rust's steps: stream (text_input)",
    "text_output/specs/Orders.antt": "the tests of the calls: write_order and the like (text_output)",
    "one_reading/specs/Calls.antt": "the calls: demand3 (one_reading)",
    "one_reading/specs/Demand.antt": "the calls: demand3 (one_reading)",
    "one_reading/specs/Cases.antt": "the calls: cases (one_reading)",
}

# The sentences that one definition, or the code's form, holds alone, by their first words, and why that is enough.
ALONE = {
    "Characters are lent as 32-bit": "the types of the entries",
    "The reference is `process_raw_string`": "the Rust is compared: harness/README.md",
    "The reference is the status block": "the Rust is compared: harness/README.md",
    "The references are `write`": "the Rust is compared: harness/README.md",
    "The property page stands in": "about the harness, which builds it: harness/src/page.rs",
    "`VecDeque` and `String`": "a form of the code",
    "The iterator chain": "a form of the code",
    "Guarded matches": "a form of the code",
    "`Box<[char]>`": "a form of the code",
    "Core first": "a form of the code",
    "let .. else takes": "a form of the code",
    "'exported on numbers": "a form of the code",
    "limits 64 and 136": "a form of the code",
    "'Replacement is one decision": "a form of the code",
}

# A quoted list of hexadecimal numbers.
NUMBERS = re.compile(r"(?:\b[0-9A-F]+ ){7,}[0-9A-F]+\b")

wrong = []
met = set()


def read(path):
    with open(path, encoding="utf8") as f:
        return f.read()


class Clause:
    """A sentence of a document or a part of it: its words by their places in the line, and who quotes which of them."""

    def __init__(self, heading, line, start, end, why_not):
        self.heading, self.text, self.why_not = heading, line[start:end].strip(" -"), why_not
        self.words = {(start + m.start(), start + m.end()): m.group() for m in re.finditer(r"\w+", line[start:end])}
        self.quoted, self.items, self.programs, self.held = set(), [], [], False

    def missing(self):
        return [] if self.why_not else [w for place, w in self.words.items() if place not in self.quoted]

    def alone(self):
        """Why one definition is enough for the sentence; None where nothing says so."""
        return next((why for first, why in ALONE.items() if self.text.startswith(first)), None)


def clauses(heading, line):
    """A line of a document, cut at full stops and semicolons; the dots of `let .. else` are none."""
    start = 0
    for m in re.finditer(r"(?<! \.)[.;](?=\s)|$", line):
        text = line[start : m.end()].strip(" -")
        if start == 0 or line[start - 1] == ".":
            why_not = "marked (02)" if "(02):" in line else None
        for first, reason in NO_PROOF.items():
            if text.startswith(first):
                why_not = reason
                met.add(first)
        if re.search(r"\w", text) and not re.fullmatch(r"\d+\.?", text):
            yield Clause(heading, line, start, m.end(), why_not)
        start = m.end()


def documents():
    """The lines of both documents with their clauses: of document 01 all, of document 02 those of the requests that are here."""
    lines, heading = [], "(opening)"
    for line in read(DOCUMENT_01).replace('"', "'").split("\n"):
        heading = line[3:] if line.startswith("## ") else heading
        lines.append((line, [] if line.startswith("#") else list(clauses(heading, line))))
    here = re.findall(r"^## (A\.\d+)\b", read(REQUESTS), re.M) if os.path.isfile(REQUESTS) else []
    for line in read(DOCUMENT_02).replace('"', "'").split("\n"):
        title = re.match(r"\*\*(A\.\d+) .*?\*\*", line)
        lines.append((line, []))
        if title and title.group(1) in here:
            text = line[title.end() :]
            lines.append((text, list(clauses(title.group(1), text))))
    return lines


def stands(quotation, text):
    """Where a quotation stands in a text: for each time the places of its parts."""
    parts = [quotation] if quotation in text else [p.strip() for p in re.split(r"(?:^| )\.\.(?: |$)", quotation) if p.strip()]
    patterns = [re.compile(r"(?<!\w)" + re.escape(p) + r"(?!\w)") for p in parts]
    for first in patterns[0].finditer(text) if patterns else ():
        found = [first]
        for pattern in patterns[1:]:
            found.append(found[-1] and pattern.search(text, found[-1].end()))
        if found[-1]:
            yield [m.span() for m in found]


def cite(quotation, lines):
    """The clauses in which a quotation stands, each with the places of the quoted words; None where no line has it."""
    cited, there = [], False
    for line, parts in lines:
        for places in stands(quotation, line):
            there = True
            for clause in parts:
                words = {(a, b) for a, b in clause.words for x, y in places if x <= a and b <= y}
                if words:
                    cited.append((clause, words))
    return cited if there else None


KEYWORDS = {"abbrev", "unfoldable", "pub", "record", "data", "ruleset", "extern", '"C"', "fn", "const", "struct", "enum", "impl"}


def name_in(line):
    return next((w for w in re.findall(r"[^\s:(){}<>;,=]+", line) if w not in KEYWORDS), None)


def is_statement(line):
    """Whether a declaration of specs/ says what holds, and not what something is."""
    return bool(re.search(r"→ Type 0( where)?$|^(pub )?(record|data) \S+ [({]", line))


def comments(path):
    """The comments of a file, each as its lines, with the item right under it, or None, and whether that is a statement."""
    mark = "//" if path.endswith(".rt") else "--"
    block, outer, states = [], None, False
    for line in read(path).split("\n"):
        bare = line.strip()
        if bare.startswith(mark):
            block.append(re.sub(r" {3}.*", "", bare[len(mark) :].strip()))
            continue
        item = None
        if re.match(r"(ghost |pub )?(use|mod|module|infix\w*|open)\b", bare):
            outer = None
        elif line.startswith(" "):
            inner = name_in(bare) if re.match(r"(pub|fn|const) |\S+ : ", bare) else None
            item = ".".join(x for x in (outer, inner) if x)
        elif bare and not bare.startswith("#["):
            item = outer = name_in(bare) or outer
            states = is_statement(bare)
        if block and not bare.startswith("#["):
            yield block, item, states
            block = []


def of_others(quotation, block):
    """Whether the line on which a quotation begins names another source before it."""
    opening = '"' + quotation[:9]
    return any(source in line.split(opening)[0] for line in block if opening in line for source in OTHERS)


def check_tree(lines):
    """The quotations of the crates; how many."""
    count = 0
    rust = " ".join(re.sub(r"\s+(//[/!]?\s*)?", " ", read(p)) for p in glob.glob(os.path.join(RUST, "**", "*.rs"), recursive=True))
    files = [glob.glob(os.path.join(CRATES, "*", kind), recursive=True) for kind in ("specs/**/*.antt", "proofs/**/*.antt", "src/**/*.rt")]
    for path in sorted(sum(files, [])):
        name = os.path.relpath(path, CRATES)
        for block, item, states in comments(path):
            text = " ".join(block)
            if text.count('"') % 2:
                wrong.append(f"{name}: a quotation without its end, above {item}")
            for quotation in re.findall(r'"([^"]*)"', text):
                count += 1
                cited = cite(quotation, lines)
                for clause, words in cited if cited and item and not name.endswith("specs/Inner.antt") else []:
                    clause.quoted |= words
                    clause.held |= states or "/proofs/" in name or name in TIED
                    if f"{name}  {item}" not in clause.items:
                        clause.items.append(f"{name}  {item}")
                of_rust = len(quotation.split()) > 2 and any(stands(quotation, rust))
                if cited is None and not of_rust and not of_others(quotation, block):
                    wrong.append(f'{name}: in no document: "{quotation}"')
    return count


def check_lists(every):
    """The lists of numbers of the sentences, each quoted above a definition that has them; how many."""
    quoted = set()
    for path in sorted(glob.glob(os.path.join(CRATES, "*", "specs", "**", "*.antt"), recursive=True)):
        for comment, item in re.findall(r"((?:^ *-- .*\n)+)((?:^.+\n)+)", read(path), re.M):
            for quotation in re.findall(r'"([^"]*)"', re.sub(r"\s*-- ", " ", comment)):
                for found in NUMBERS.findall(quotation):
                    quoted.add(found)
                    if [int(n, 16) for n in found.split()] != [int(n, 16) for n in re.findall(r"\b0x([0-9A-Fa-f]+)", item)]:
                        wrong.append(f"{os.path.relpath(path, CRATES)}: not the quoted numbers: {item.split(':')[0]}")
    lists = [found for clause in every if not clause.why_not for found in NUMBERS.findall(clause.text)]
    wrong.extend(f"no definition under these numbers, quoted: {found}" for found in lists if found not in quoted)
    return len(lists)


def check_programs(lines):
    """The lines `# Breaks:` of the wrong programs; how many programs."""
    paths = sorted(glob.glob(os.path.join(CRATES, "*", "must-fail", "*.edit")))
    for path in paths:
        name = os.path.relpath(path, CRATES)
        quotations = re.findall(r'"([^"]*)"', " ".join(re.findall(r"^# Breaks: .*", read(path), re.M)))
        if not quotations:
            wrong.append(f"{name}: no quotation in a line `# Breaks:`")
        for quotation in quotations:
            cited = cite(quotation, lines)
            if cited is None:
                wrong.append(f'{name}: in no document: "{quotation}"')
            for clause, _ in cited or []:
                clause.programs.append(name)
                if not clause.items:
                    wrong.append(f"{name}: no item cites: {clause.text}")
    return len(paths)


# how a name is defined: a function or a type of the code, an item of specs/ or proofs/
DEFINED = (r"\b(?:fn|const|struct|enum) %s\b", r"^\s*(?:(?:abbrev|unfoldable|pub|record|data|ruleset)\s+)*(?:[\w-]+ )*?%s(?: [\w-]+)*(?=\s*[:({=])")


def check_names():
    """The names that docs/PROOFS.md cites; how many."""
    count = 0
    text = re.sub(r"\s+", " ", read(PROOFS))
    for names, crate, file in re.findall(r"((?:`[\w:-]+`(?:, | and )?)+)(?: [a-z ]+)? \(([a-z_]+)(?:, (\w+))?\)", text):
        places = (f"specs/{file}.antt", f"proofs/{file}.antt") if file else ("src/**/*.rt",)
        found = "\n".join(read(p) for place in places for p in glob.glob(os.path.join(CRATES, crate, place), recursive=True))
        for name in re.findall(r"[\w-]+(?=`)", names):
            count += 1
            if not re.search(DEFINED[bool(file)] % re.escape(name), found, re.M):
                wrong.append(f"docs/PROOFS.md: no {name} in {crate}{', ' + file if file else ''}")
    return count


def print_map(every):
    heading = None
    for clause in every:
        if clause.heading != heading:
            heading = clause.heading
            print(f"\n## {heading}")
        print(f"\n{clause.text}")
        if clause.why_not:
            print(f"    owes no proof: {clause.why_not}")
        for item in clause.items:
            print(f"    {item}" + (f"   (tied to {TIED[item.split()[0]]})" if item.split()[0] in TIED else ""))
        if not clause.why_not and not clause.held and clause.alone():
            print(f"    one definition is enough: {clause.alone()}")
        for program in clause.programs:
            print(f"    wrong: {program}")
    print()


def main():
    for place in (DOCUMENT_01, DOCUMENT_02, RUST):
        if not os.path.exists(place):
            print(f"NOT CHECKED: {place} is not there (DOCUMENT_01, DOCUMENT_02 and BASIC_TEXT_SRC name other places)")
            return 1 if os.environ.get("CI") else 0
    lines = documents()
    every = [clause for _, parts in lines for clause in parts]
    quotations, lists, programs, names = check_tree(lines), check_lists(every), check_programs(lines), check_names()
    wrong.extend(f"NO_PROOF: no sentence begins with: {first}" for first in NO_PROOF if first not in met)
    wrong.extend(f"{c.heading}: no item quotes `{' '.join(c.missing())}` of: {c.text}" for c in every if c.missing())
    wrong.extend(f"{c.heading}: one definition alone holds: {c.text}" for c in every if not (c.why_not or c.held or c.alone()))
    wrong.extend(f"ALONE: no sentence that needs it begins with: {first}" for first in ALONE if not any(c.text.startswith(first) and not c.held for c in every))
    wrong.extend(f"TIED: no file {name}" for name in TIED if not os.path.isfile(os.path.join(CRATES, name)))
    if sys.argv[1:] == ["map"]:
        print_map(every)
    for line in wrong:
        print(line)
    print(f"{len(every)} sentences and clauses, {quotations} quotations, {lists} lists of numbers, {programs} wrong programs, {names} names: {len(wrong)} wrong")
    return 1 if wrong else 0


if __name__ == "__main__":
    sys.exit(main())
