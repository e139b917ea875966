#!/usr/bin/env python3
"""Counts places in the sources that today's Rattle lets one write better: run it at the top of a checkout.

The numbers are of docs/DESIGN-PASS.md. Each is a count of lines or names that a pattern finds; which of them are places
to change is for a reader to say. With the name of a count after it, the script lists what it found.
"""
import collections
import pathlib
import re
import sys

CRATES = sorted(p for p in pathlib.Path("crates").iterdir() if p.is_dir())
TESTS = {p.name for p in CRATES if p.name.endswith("_tests")}
# what a trait asks for, or what every language calls so
SHARED = {"fault", "layers", "kind", "top", "atoms", "controls", "reads", "awaits", "choices", "is_open", "gives", "fmt",
          "from", "try_from", "main", "new", "read", "none", "with", "get", "has", "len"}


def sources(tests=True):
    for crate in CRATES:
        if tests or crate.name not in TESTS:
            for path in sorted(crate.glob("src/**/*.rt")):
                yield crate.name, path, path.read_text()


def code(text):
    """The text with comments and contracts left blank."""
    lines = []
    for line in text.split("\n"):
        line = line.split("//")[0]
        lines.append("" if re.match(r"\s*(requires|ensures|ghost)\b", line) else line)
    return "\n".join(lines)


def lines(pattern, tests=True):
    found = []
    for _, path, text in sources(tests):
        for number, line in enumerate(code(text).split("\n"), 1):
            if re.search(pattern, line):
                found.append(f"{path}:{number}: {line.strip()}")
    return found


def refusals_by_number():
    return lines(r"\bnumber: (\d+|[A-Z_]+)\b|\b(refused|refused_if|own)\(\d+", tests=False)


def arms_by_number():
    return lines(r"^\s+(\d+(\.\.=\d+)?)( \| \d+(\.\.=\d+)?)*( if .*)? => ", tests=False)


def codes_by_option():
    return lines(r"fn \w+\((\w+: u8|\w+: &str|kind: u8.*)\) -> Option<(?!u8)", tests=False)


def flags_beside_values():
    return lines(r"^\s+(pub )?(wrong|crowded|verdict|fault|found|size|long|count): (Option|Result|bool|u8|usize)", tests=False)


def twin_names():
    where = collections.defaultdict(set)
    for crate, path, text in sources(tests=False):
        for name in re.findall(r"\bfn (\w+)", code(text)):
            where[name].add(str(path))
    return [f"{n}: {', '.join(sorted(w))}" for n, w in sorted(where.items()) if len(w) > 1 and n not in SHARED]


def counted_loops():
    return lines(r"\bfor \w+ in [^{]*\.\.|\bwhile\b|\bloop \{|\b\w+ \+= 1;")


def by_hand():
    return lines(r"fn (?!check_|add_|unit_)\w*(_word|_number|_words)\(|fn words\(|fn read\(\w+: (u8|&str)\)|Ok\(\w+\) => Ok\(\w+\)|Err\(_\) => Err\(|None => None,|Some\((\w+)\) => Some\(\2\)", tests=False)


def repeated_requires():
    seen = collections.Counter()
    for _, _, text in sources():
        for clause in re.findall(r"^\s+requires (?:\w+ )?(\{.*\})", text, re.M):
            seen[clause] += 1
    return [f"{n} times {c}" for c, n in seen.most_common() if n >= 3]


def parameters_together():
    seen = collections.Counter()
    for _, _, text in sources(tests=False):
        for group in re.findall(r"\bfn \w+(?:<[^(]*>)?\(([^)]*)\)", code(text)):
            names = [p.strip() for p in group.replace("\n", " ").split(",") if p.strip()]
            for one, other in zip(names, names[1:]):
                if "self" not in one:
                    seen[f"{one}, {other}"] += 1
    return [f"{n} times ({p})" for p, n in seen.most_common() if n >= 3]


def arrays_in_place():
    return lines(r"^\s+(pub )?\w+: \[[^\]]+; \w+\],")


def steps_by_flag():
    return lines(r"match (\w+\.)*(test|step|sort)\b|test: Test", tests=False)


def proof_files():
    return [str(p) for crate in CRATES for p in sorted(crate.glob("proofs/**/*.antt"))]


def proof_lines():
    return [line for p in proof_files() for line in pathlib.Path(p).read_text().split("\n") if line.strip()]


COUNTS = {
    "1 refusals by number": refusals_by_number,
    "1 arms by number": arms_by_number,
    "1 codes by option": codes_by_option,
    "1 flags beside values": flags_beside_values,
    "2 twin names": twin_names,
    "3 counted loops": counted_loops,
    "4 by hand": by_hand,
    "5 repeated requires": repeated_requires,
    "5 parameters together": parameters_together,
    "6 arrays in place": arrays_in_place,
    "7 steps by flag": steps_by_flag,
    "8 proof files": proof_files,
    "8 proof lines": proof_lines,
}

if __name__ == "__main__":
    for name, count in COUNTS.items():
        found = count()
        if len(sys.argv) > 1:
            if name == " ".join(sys.argv[1:]):
                print("\n".join(found))
        else:
            print(f"{name}: {len(found)}")
