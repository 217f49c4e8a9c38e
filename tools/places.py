#!/usr/bin/env python3
"""Counts the places of docs/DESIGN-PASS.md.

usage: tools/places.py COMMIT          the counts of each point, in crates/*/src of that commit
       tools/places.py COMMIT POINT    the places of one point, each with its file and line
"""

import re
import subprocess
import sys

# Each line of a point: its name, and what is counted.
POINTS = {
    "1": [
        ("enums of the sources", r"^ *(?:pub )?enum \w+"),
        ("cases that refuse or that are none", r"^ +(?:Refused|NoKind|NoEntry|NoList|NoPoint|Malformed|Nothing)(?:\([^)]*\))?,$"),
        ("refusals passed on by a match", r"Refused\((?:e|refusal|_)(?:, *(?:p|place|_))?\) =>"),
        ("numbers of refusals and of kinds", r"refusals::number\(|\.number\(\)|(?<!fn )kind_number\((?!kind_meant|\(kind)"),
        ("structs of a number or an answer beside a value", r"^ *struct (?:Moved|Handed|Sent)\b"),
    ],
    "2": [
        ("structs of value, place and next", r"^ *pub struct (?:TakenByte|TakenInteger|TakenCount|TakenPoint)\b"),
        ("least, most, and fields of a byte", r"^ *fn (?:least|most|five_bits|two_bits|middle|lowest|move_down|move_up|read_full)\b|^ *pub fn read_full\b"),
        ("printing of the programs", r"^ *(?:pub )?fn (?:text|number|signed|byte|bytes|decimal)<"),
    ],
    "3": [("loops that count by hand, or have no head", r"^ *(?:while (?!let)|loop\b)")],
    "4": [
        ("two tests joined by a call", r"refusals::both\("),
        ("casts", r" as (?:u8|u16|u32|u64|usize|i32|i64)\b"),
        ("a field set from a variable of its name", r"^ +(\w+): \1,$"),
    ],
    "5": [
        ("what is remembered, the bytes and the place", r"fn \w+(?:<[^>]*>)?\(\s*kept: Remembered,[^)]*?\bs: &\[u8\],\s*at: usize"),
        ("the lent bytes and the place", r"fn \w+(?:<[^>]*>)?\([^)]*\bout: &mut \[u8\],\s*at: usize"),
        ("W and H", r"fn \w+(?:<[^>]*>)?\([^)]*\bw: usize,\s*h: usize"),
        ("the two stores", r"fn \w+(?:<[^>]*>)?\([^)]*\bvolatile: &[^,]*,\s*saved: &"),
        ("clauses of an answer and the lent bytes", r"^ *ensures.*(?:after_write \(|result ≡ length \()"),
    ],
    "6": [("a length beside an array", r"^ +(?:pub )?len: usize,$")],
    "7": [("a flag that says which step to run", r"fn pour_part\(")],
}


def git(*arguments):
    return subprocess.run(["git", *arguments], check=True, capture_output=True, text=True).stdout


def sources(commit):
    names = git("ls-tree", "-r", "--name-only", commit, "crates").split()
    return {n: git("show", f"{commit}:{n}") for n in names if re.fullmatch(r"crates/\w+/src/\w+\.rt", n)}


def main():
    if len(sys.argv) not in (2, 3):
        sys.exit(__doc__)
    files = sources(sys.argv[1])
    for point, lines in POINTS.items():
        if sys.argv[2:] not in ([], [point]):
            continue
        for what, pattern in lines:
            found = [(n, t.count("\n", 0, m.start()) + 1) for n, t in sorted(files.items()) for m in re.finditer(pattern, t, re.M)]
            print(f"{point}  {len(found):4}  {what}")
            if sys.argv[2:]:
                print("".join(f"         {name}:{line}\n" for name, line in found), end="")
    if not sys.argv[2:]:
        proofs = [n for n in git("ls-tree", "-r", "--name-only", sys.argv[1], "crates").split() if "/proofs/" in n]
        print(f"8  {sum(n.endswith('/Answers.antt') for n in proofs):4}  files of answers")
        print(f"8  {sum(git('show', f'{sys.argv[1]}:{n}').count(chr(10)) for n in proofs):4}  lines of proofs")


main()
