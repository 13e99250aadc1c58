#!/usr/bin/env python3
"""design_count.py [COMMIT]: counts, in src/ of every crate, the places that docs/DESIGN-PASS.md
speaks of, by the same patterns for any commit (the working tree where none is named).

A pattern finds candidates. What of them is a place, the page tells by its lists."""
import collections
import re
import subprocess
import sys


def files(commit):
    """The source files of a commit, or of the working tree, with their texts."""
    if commit:
        names = subprocess.run(["git", "ls-tree", "-r", "--name-only", commit], check=True,
                               capture_output=True, text=True).stdout.split("\n")
    else:
        names = subprocess.run(["git", "ls-files"], check=True, capture_output=True,
                               text=True).stdout.split("\n")
    for name in names:
        if re.fullmatch(r"crates/\w+/src/.*\.rt", name):
            if commit:
                text = subprocess.run(["git", "show", f"{commit}:{name}"], check=True,
                                      capture_output=True, text=True).stdout
            else:
                text = open(name, encoding="utf-8").read()
            yield name, re.sub(r"^\s*//.*$", "", text, flags=re.M)


def grep(pattern, texts):
    """The places of a pattern: crate and the function or type that it stands in."""
    found = []
    for name, text in texts:
        for match in re.finditer(pattern, text, re.M):
            before = text[:match.end()]
            owner = re.findall(r"^\s*(?:pub )?(?:extern \"C\" )?(?:fn|enum|struct) (\w+)", before, re.M)
            found.append(f"{name.split('/')[1]}::{owner[-1] if owner else '-'}")
    return found


def facts(texts):
    """Facts that stand in `requires` of three or more functions, with these."""
    count = collections.defaultdict(list)
    signature = re.compile(r"fn (\w+)[^{]*?\)(?: -> [^\n]+)?\n"
                           r"((?:\s+(?:requires|ensures)[^\n]*\{(?:[^{}]|\{[^{}]*\})*\}\n)+)")
    for name, text in texts:
        for match in signature.finditer(text):
            for clause in re.finditer(r"requires(?: \w+)? \{((?:[^{}]|\{[^{}]*\})*)\}",
                                      match.group(2)):
                for fact in re.split(r" × (?![^()]*\))", " ".join(clause.group(1).split())):
                    while fact.startswith("(") and fact.endswith(")"):
                        fact = fact[1:-1]
                    count[fact.strip()].append(f"{name.split('/')[1]}::{match.group(1)}")
    return {fact: places for fact, places in count.items() if len(places) > 2}


POINTS = [
    ("1 enums of the shape of Option or Result", r"^\s+(?:Refused|Refuse|Malformed)\b(?:\(.*\))?,"),
    ("1 flags in a struct, or beside a value", r"\b(?:refused|whole|potential|minus): bool"),
    ("1 numbers for kinds", r"\b(?:kind|letter|subject|pool): (?:u64|u8|usize)|"
                            r"\b(?:kind|pool|letter) == \d"),
    ("1 numbers for refusals and faults", r"\bSHAPE;|NO_SURVIVAL\n|refusal_number\(|\breturn 0;|"
                                          r"next: text\.len\(\)|return text\.len\(\)"),
    ("3 loops by hand", r"^\s*while "),
    ("4 comparisons and conversions by hand", r"^\s+return true;|^\s+return false;"),
    ("6 buffers", r"let mut \w+ = \[\w+; "),
    ("7 switches on a step", r"match letter|if (?:turn|letter|kind) =="),
]


def main():
    """Prints the counts, and with each the places."""
    texts = list(files(sys.argv[1] if len(sys.argv) > 1 else ""))
    for title, pattern in POINTS:
        places = grep(pattern, texts)
        print(f"{title}: {len(places)}")
        for place, times in sorted(collections.Counter(places).items()):
            print(f"    {place}" + (f" x{times}" if times > 1 else ""))
    found = facts(texts)
    print(f"5 facts in three or more contracts: {len(found)}")
    for fact, places in sorted(found.items(), key=lambda item: -len(item[1])):
        print(f"    {len(places)} {fact}: {', '.join(places)}")


if __name__ == "__main__":
    main()
