#!/usr/bin/env python3
"""needs.py CRATE..: a need that `search needs` closes stands in the list of its spec, not under a name of its own.

What tools write first has a name for each need of a function. Once it is proved, only the needs that ask for a thought keep theirs.
"""
import re
import sys
from pathlib import Path

WIDTH = 150
CLOSED = re.compile(r"^([a-z0-9-]+) : tie\.Need-[^\n]+\n\1((?: [^\s=]+)*) = search needs\n\n?", re.M)
SPEC = re.compile(r" =\s+tie\.close\s+\(tie\.spec\s+(.*)\)\s*\Z", re.S)


def word(name):
    """The name where it stands as a whole word."""
    return re.compile(rf"(?<![\w·.-]){re.escape(name)}(?![\w·-])")


def named(text):
    """The proof with its searched needs put where they are handed over."""
    for m in list(CLOSED.finditer(text)):
        name = word(m.group(1))
        above = text[: text.index(m.group(0))].rstrip("\n").split("\n")[-1]
        if above.startswith("--") or len(name.findall(text)) != 3:
            continue
        text = text.replace(m.group(0), "", 1)
        head, tie, needs = text.rpartition("tie.spec")
        text = head + tie + name.sub(f"(λ{m.group(2)}. search needs)", needs, count=1)
    return text


def arguments(text):
    """The words of a call; what stands in brackets is one."""
    found, depth = [""], 0
    for ch in text:
        depth += (ch in "({") - (ch in ")}")
        if ch.isspace() and depth == 0:
            found.append("")
        else:
            found[-1] += " " if ch == "\n" else ch
    return [re.sub(r" +", " ", a) for a in found if a]


def filled(text):
    """The list of needs in as few lines as it takes."""
    m = SPEC.search(text)
    if not m:
        return text
    needs = arguments(m.group(1))
    head = text[: m.start()]
    line = f" = tie.close (tie.spec {' '.join(needs)})"
    if len(head.split("\n")[-1] + line) <= WIDTH:
        return head + line + "\n"
    lines = ["   "]
    for need in needs:
        if len(lines[-1]) + 1 + len(need) > WIDTH and lines[-1].strip():
            lines.append("   ")
        lines[-1] += " " + need
    return head + " =\n    tie.close\n    (tie.spec\n" + "\n".join(lines) + ")\n"


for crate in sys.argv[1:]:
    for path in sorted(Path("crates", crate, "proofs").rglob("Proof.antt")):
        old = path.read_text()
        new = filled(named(old))
        if new != old:
            path.write_text(new)
            print(f"{path}: {old.count(chr(10))} -> {new.count(chr(10))}")
