#!/usr/bin/env python3
"""Lists the places in src/ where an older form may stand, by kind, and counts them.

usage: python3 tools/places.py [COMMIT]      at the top of the repository; with no commit, the files as they lie there

Tests (`#[cfg(test)]`) are left out. A line that is listed is a place to look, not a verdict: docs/DESIGN-PASS.md says what became of each.
"""

import difflib
import itertools
import re
import subprocess
import sys
from collections import defaultdict
from pathlib import Path

WIDE = r"(?:u8|u16|u32|u64|usize|i32|i64)"

# by lines: a kind of place, and what its lines look like
LINES = {
    "1 own enums": r"\benum \w+",
    "1 answers that are a bool or hold one": r"-> (?:bool|\(.*\bbool\b.*\))",
    "1 numbers for kinds": rf"\b(?:direction|kind|rank|mode|code|tag): {WIDE}",
    "1 tuples with an end of the work": r"-> \((?!\)).*\)",
    "3 loops over a range": r"\bfor [\w_]+ in .*\.\.",
    "3 while and loop": r"\b(?:while|loop)\b.*\{",
    "3 places stepped by hand": r"\b\w+ (?:\+|-)= 1;|\b(?:at|beside) = .*\+ 1;",
    "4 equality and conversion by hand": r"fn (?:same|is_same|is_text|from_\w+|to_\w+|\w+_of)\b.*\(",
    "4 impls of Display, Error, From, PartialEq": r"^impl.*\b(?:Display|Error|From<|TryFrom<|PartialEq|Ord).* for ",
    "4 casts by `as`": rf"\bas {WIDE}\b",
    "6 arrays of a fixed size": r"\[[^\[\];]+; [\w]+\]",
    "6 lengths beside a buffer": rf"^\s*(?:pub(?:\(crate\))? )?(?:count|len|used|left|capacity|actions|facts|words|lines): {WIDE}\b",
    "7 matches": r"\bmatch .*\{",
    "7 function values": r"\bdyn\b|\bfn\(|impl Fn|: Fn",
}


def files(commit, pattern):
    """Each file of that name, and its text."""
    if commit:
        names = subprocess.run(["git", "ls-tree", "-r", "--name-only", commit], capture_output=True, text=True, check=True).stdout.split()
        read = lambda n: subprocess.run(["git", "show", f"{commit}:{n}"], capture_output=True, text=True, check=True).stdout
    else:
        names = [str(p) for p in Path("crates").rglob("*") if "out" not in p.parts and p.is_file()]
        read = lambda n: Path(n).read_text()
    for name in sorted(n for n in names if re.fullmatch(pattern, n)):
        yield name, read(name)


def sources(commit):
    """Each source file's name and its lines, without tests."""
    for name, text in files(commit, r"crates/\w+/src/.*\.rt"):
        yield name, text.split("#[cfg(test)]")[0].split("\n")


def proofs(commit):
    """The lines of proofs of each crate, its laws among them, and the answers that stand three times or more."""
    lines, answers = defaultdict(int), defaultdict(list)
    for name, text in files(commit, r"crates/\w+/(?:proofs/.*|specs/Laws)\.antt"):
        crate = name.split("/")[1]
        lines[crate] += text.count("\n")
        for goal, answer in re.findall(r"^pub [\w'-]+ : goal\.([\w'-]+)\n[\w'-]+ [^=]*= ?(.*(?:\n .*)*)", text, re.M):
            answers[re.sub(r"\s+", " ", answer).strip()].append(f"{name.removeprefix('crates/')} {goal}")
    for crate, count in lines.items():
        yield "8 crates with proofs, and their lines", f"{crate}: {count}"
    for answer, where in answers.items():
        if len(where) >= 3:
            yield "8 answers that stand three times or more", f"{answer}: {', '.join(where)}"
        for place in where:
            yield "8 answers", f"{place}: {answer[:100]}"


def is_clause(line):
    """Whether a line is a clause, a ghost item, a comment or an import."""
    return bool(re.match(r"\s*(?://|use |pub use |ghost |(?:requires|ensures)\b|\(\w+ self\.|→|#)", line))


class Function:
    """A function: where it stands, its parameters, its clauses and its body."""

    def __init__(self, where, head, body):
        self.where, self.body = where, body
        inside = re.search(r"\((.*?)\)\s*(?:->|$|\{|requires|ensures)", head, re.S)
        self.params = [re.sub(r"\s+", " ", p.strip()) for p in split_top(inside.group(1))] if inside else []
        self.params = [re.sub(r"^mut ", "", p) for p in self.params if ":" in p]
        self.clauses = [re.sub(r"\s+", " ", c.strip()) for c in re.findall(r"(?:requires|ensures)\b[^{]*\{(.*?)\}\s*(?=\n)", head + "\n", re.S)]


def split_top(text):
    """The parts of a text between commas that stand in no bracket."""
    parts, depth, last = [], 0, 0
    for i, c in enumerate(text):
        depth += (c in "([{<") - (c in ")]}>")
        if c == "," and depth == 0:
            parts.append(text[last:i])
            last = i + 1
    return [p for p in parts + [text[last:]] if p.strip()]


def functions(name, lines):
    """The functions of a file."""
    i = 0
    while i < len(lines):
        found = re.match(r"(\s*)(?:pub(?:\(crate\))? )?(?:extern \"C\" )?(?:const )?fn (\w+)", lines[i])
        if not found or lines[i].rstrip().endswith(";"):
            i += 1
            continue
        indent, head = found.group(1), []
        j = i
        while j < len(lines) and not re.match(rf"{indent}\{{|.*\{{$", lines[j]) and not lines[j].rstrip().endswith("{}"):
            if lines[j].strip() in ("}", "{}") or (lines[j].rstrip().endswith(";") and j > i):
                break
            head.append(lines[j])
            j += 1
        if j < len(lines) and not re.match(rf"{indent}\{{", lines[j]):
            head.append(lines[j])
        k = j + 1
        while k < len(lines) and not re.match(rf"{indent}\}}", lines[k]):
            k += 1
        yield Function(f"{name}:{i + 1} {found.group(2)}", "\n".join(head), "\n".join(lines[j + 1 : k]))
        i = max(k, i + 1)


def shape(body):
    """A body with its names, numbers and strings replaced, as a list of words."""
    words = re.findall(r"\w+|[^\w\s]", re.sub(r"//.*", "", body))
    keep = {"for", "in", "if", "else", "match", "return", "let", "mut", "while", "Some", "None", "Ok", "Err", "true", "false", "self", "as", "break"}
    return [w if w in keep or not re.match(r"\w", w) else "x" for w in words]


def twins(every):
    """Pairs of functions whose bodies have one shape, or nearly."""
    long = [(f, shape(f.body)) for f in every]
    long = [(f, s) for f, s in long if len(s) >= 14]
    for (f, a), (g, b) in itertools.combinations(long, 2):
        if min(len(a), len(b)) / max(len(a), len(b)) < 0.8:
            continue
        alike = difflib.SequenceMatcher(None, a, b, autojunk=False).ratio()
        if alike >= 0.86:
            yield f"{f.where} ~ {g.where} ({alike:.2f})"


def groups(every):
    """Parameters that come together in three or more functions, and facts that stand in three or more contracts."""
    together, facts = defaultdict(list), defaultdict(list)
    for f in every:
        for pair in itertools.combinations(sorted(f.params), 2):
            together[pair].append(f.where.split()[1])
        for clause in set(f.clauses):
            for fact in set(re.split(r" × | → ", clause)):
                if len(fact) > 12 and "result" not in fact:
                    facts[fact.strip(" ()")].append(f.where.split()[1])
    for pair, where in sorted(together.items()):
        if len(where) >= 3:
            yield "5 parameters that travel together", f"{', '.join(pair)}: {', '.join(where)}"
    for fact, where in sorted(facts.items()):
        if len(where) >= 3:
            yield "5 facts in three or more contracts", f"{fact}: {', '.join(where)}"


def parallel(name, lines):
    """Structs with two or more arrays, slices or vectors side by side."""
    for found in re.finditer(r"struct (\w+)[^{;]*\{(.*?)\n\}", "\n".join(lines), re.S):
        fields = [l for l in found.group(2).split("\n") if re.search(r":\s*(?:&'?\w* ?(?:mut )?\[|\[|Vec<|Option<Vec<|ArrayVec<)", l)]
        if len(fields) >= 2:
            yield f"{name} {found.group(1)}"


def main():
    commit = sys.argv[1] if len(sys.argv) > 1 else None
    places, every = defaultdict(list), []
    for name, lines in sources(commit):
        for i, line in enumerate(lines, 1):
            if not is_clause(line):
                for kind, pattern in LINES.items():
                    if re.search(pattern, line):
                        places[kind].append(f"{name}:{i}: {line.strip()}")
        every += functions(name, lines)
        places["6 parallel arrays"] += parallel(name, lines)
    places["2 functions of one shape"] = list(twins(every))
    for kind, place in itertools.chain(groups(every), proofs(commit)):
        places[kind].append(place)
    for kind in sorted(places):
        print(f"== {kind}: {len(places[kind])}")
        for place in places[kind]:
            print("  ", place)
    print("== counts")
    for kind in sorted(places):
        print(f"{len(places[kind]):4} {kind}")


if __name__ == "__main__":
    main()
