#!/usr/bin/env python3
"""Fills the table of docs/PERFORMANCE.md and the numbers of its first lines from what `bench/run --times` prints.

bench/run --times > TIMES && bench/performance.py TIMES, from the root of the repository, on an otherwise idle machine.
"""

import pathlib
import re
import sys

PAGE = pathlib.Path("docs/PERFORMANCE.md")
HEAD = "| Call | 512 parts, 64 tips | 20 parts, 8 tips | Grows with |\n|---|---:|---:|---|\n"
# The calls of each row, by how it begins.
ROWS = {
    "read a job file": ["read"],
    "common tip": ["common"],
    "keep within k": ["keep"],
    "quick plan": ["quick"],
    "best plan": ["best"],
    "exact plan": ["exact-8", "exact-12", "exact-16", "exact-20"],
    "plan along the list": ["along"],
    "check a plan": ["check"],
    "goal of pairs": ["goal"],
    "both plans as text": ["report"],
    "two boards on a panel": ["merge", "alone"],
    "mend a damaged file": ["mend"],
    "plan for the Junior": ["junior"],
    "placing order": ["order", "order_by_tips"],
    "windows of the placing order": ["windows"],
}


def main(path):
    cells = re.findall(r"^\| ([\w-]+) \| ([^|]*?) ?\| ([^|]*?) ?\|$", pathlib.Path(path).read_text(encoding="utf-8"), re.MULTILINE)
    large = {call: time for call, time, _ in cells}
    small = {call: time for call, _, time in cells}
    page = PAGE.read_text(encoding="utf-8")
    before, table, after = re.fullmatch(r"(.*?)(\| Call \| 512 parts.*?\n)(\n.*)", page, re.DOTALL).groups()
    rows = []
    for row in table.splitlines()[2:]:
        fields = [field.strip() for field in row.strip("|").split("|")]
        (calls,) = [calls for begin, calls in ROWS.items() if fields[0].startswith(begin)]
        joint = ", " if calls[0].startswith("exact") else "; "
        of_small = [small["exact"]] if calls[0].startswith("exact") else [small[call] for call in calls]
        rows.append(f"| {fields[0]} | {joint.join(large[call] for call in calls)} | {'; '.join(of_small)} | {fields[-1]} |\n")

    def most(call):
        return large[call].rpartition("to ")[2]

    for words, number in (
        ("a quick plan takes", large["quick"]),
        ("and a best plan", large["best"]),
        ("a goal of pairs up to", most("goal")),
        ("windows of 128 parts up to", most("windows")),
        ("an exact plan from", large["exact-8"]),
        ("with 8 different tips to", large["exact-20"]),
    ):
        after_words = r"\s".join(words.split())
        pattern = rf"({after_words}\s)[\d.]+(?: to [\d.]+)? (?:ns|µs|ms)"
        before, found = re.subn(pattern, lambda match, number=number: match[1] + number, before)
        if found != 1:
            sys.exit(f"{PAGE}: a time after '{words}' is there {found} times")
    PAGE.write_text(before + HEAD + "".join(rows) + after, encoding="utf-8")


if __name__ == "__main__":
    if len(sys.argv) != 2:
        sys.exit(__doc__)
    main(sys.argv[1])
