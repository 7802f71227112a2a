#!/usr/bin/env python3
"""Brings the names inside records, modules and proofs to snake case, as tools/respell.py brought those of whole files.

    python3 tools/respell_inner.py          at the top of the repository, once, behind tools/respell.py

`name-like-this` becomes `name_like_this` if a field, a lemma or a variable of this repository has that name. Names of the
kit's libraries keep their spelling, and so do those that the prover makes: of goals, and of facts (they stand behind a point).
Where two names would fall together, the lemma gets `_lem` behind it; a few names stand below with the new ones.
"""
import collections
import glob
import os
import re
import subprocess
import sys

PART = r"[A-Za-z0-9_'✓≤≢∷₂ᴰℕ*+]+"
DASHED = re.compile(r"(?<![A-Za-z0-9_'\-✓+])[A-Za-z]" + r"[A-Za-z0-9_'✓]*(?:-" + PART + r")+")
INNER = re.compile(r"^\s+(?:(?:pub|abbrev|unfoldable) )*([A-Za-z][A-Za-z0-9_'\-✓]*)\s*:(?:\s|$)")
MADE = re.compile(r"^(returns|loop|invariant|decreases|bounds|overflow|slice_bounds|then|else|in|if|in_default|shared)[-_]|-requires(-\d+)?$|-spec$")
GIVEN = {
    "record-left": "table_left",
    "table-left": "table_left",
    "new-place": "new_place",
    "complete-row": "row_is_complete",
    "buyer-signed": "buyer_signed",
    "seller-signed": "seller_signed",
    "the-buyer": "the_buyer",
    "reached-more": "reached_more",
    "in-range": "in_range_lem",
}


def code_of(line):
    at = line.find("--")
    return line if at < 0 else line[:at]


def sources():
    found = glob.glob("crates/*/specs/*.antt") + glob.glob("crates/*/proofs/**/*.antt", recursive=True)
    return sorted(f for f in found if "/out/" not in f)


def of_the_kit():
    """every dashed name of the kit's own files"""
    kit = os.path.dirname(subprocess.run(["rt", "doc"], capture_output=True, text=True, check=True).stdout.strip())
    found = set()
    for folder, _, files in os.walk(kit + "/rattle"):
        for file in files:
            if file.endswith(".antt"):
                with open(folder + "/" + file, encoding="utf-8", errors="replace") as text:
                    found.update(DASHED.findall(text.read()))
    return found


def names():
    declared, used, behind_a_point, words = set(), collections.Counter(), collections.Counter(), set()
    for file in sources():
        with open(file, encoding="utf-8") as text:
            lines = [code_of(line) for line in text]
        in_a_function = file.count("/") > 3
        for line in lines:
            match = INNER.match(line)
            if match and "-" in match.group(1) and not in_a_function:
                declared.add(match.group(1))
            for match in DASHED.finditer(line):
                used[match.group(0)] += 1
                behind_a_point[match.group(0)] += line[: match.start()].endswith(".")
            words.update(re.findall(r"[A-Za-z][A-Za-z0-9_']*", line))
    kit, to = of_the_kit(), {}
    for name in sorted(used):
        own = name in declared or behind_a_point[name] == 0
        if not own or name not in GIVEN and (name in kit or MADE.search(name)):
            continue
        new = name.replace("-", "_")
        to[name] = GIVEN.get(name) or (new + "_lem" if new in words or new in to.values() else new)
    return to


def main():
    to = names()
    if "--list" in sys.argv:
        for name, new in to.items():
            print(name, new)
        return
    for file in sources():
        with open(file, encoding="utf-8") as text:
            lines = text.read().split("\n")
        out = []
        for line in lines:
            code = code_of(line)
            said = re.sub(r"`[^`]*`", lambda m: DASHED.sub(lambda n: to.get(n.group(0), n.group(0)), m.group(0)), line[len(code) :])
            out.append(DASHED.sub(lambda n: to.get(n.group(0), n.group(0)), code) + said)
        with open(file, "w", encoding="utf-8") as text:
            text.write("\n".join(out))


if __name__ == "__main__":
    main()
