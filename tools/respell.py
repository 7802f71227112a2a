#!/usr/bin/env python3
"""Brings the repository's own definitions and lemmas to today's spelling: words in snake case.

    python3 tools/respell.py          at the top of the repository, once, after the kit's port.py

A name counts where a file of specs/ or proofs/ declares it. `nameLikeThis` becomes `name_like_this` wherever it stands, and
so does `name-like-this`, where a line of its own declares it for other files. Where two names would fall together, the lemma
gets `_lem` behind it. Names that the prover makes keep their spelling (in the folders proofs/FUNCTION/ they stand behind a
point), and so do words in comments, unless they stand in backticks.
"""
import glob
import re
import sys

WORD = r"[A-Za-z][A-Za-z0-9_'\-✓]*"
DECLARED = re.compile(r"^(\s*)(?:(?:pub|abbrev|unfoldable|private) )*(" + WORD + r")\s*:(?:\s|$)")


def comment_starts(line, mark):
    at = line.find(mark)
    return len(line) if at < 0 else at


def snake(name):
    name = re.sub(r"(?<=[a-z0-9])([A-Z])", lambda m: "_" + m.group(1).lower(), name)
    return re.sub(r"-(?=[A-Za-z0-9])", "_", name)


def sources(pattern):
    return sorted(glob.glob("crates/*/" + pattern, recursive=True))


def declared():
    """name -> whether a file of specs/ declares it"""
    found = {}
    for file in sources("specs/*.antt") + sources("proofs/*.antt"):
        for line in open(file):
            line = line[: comment_starts(line, "--")]
            match = DECLARED.match(line)
            if match and "-" in match.group(2) and match.group(1):
                continue
            if match and not re.match(r"\s*(pub )?(use|mod)\b", line):
                found[match.group(2)] = found.get(match.group(2), False) or "/specs/" in file
    for file in sources("proofs/*/**/*.antt"):
        for line in open(file):
            match = DECLARED.match(line)
            if match and re.search(r"[a-z0-9][A-Z]", match.group(2)):
                found.setdefault(match.group(2), False)
    return found


def locals_in_camel():
    """variables and fields that no line declares by itself, as in (sourceNo : ℕ) and λ sourceNo."""
    found = set()
    for file in sources("**/*.antt") + sources("src/**/*.rt"):
        for word in re.findall(r"(?<![A-Za-z0-9_'\-.])[a-z][a-z0-9]*(?:[A-Z][A-Za-z0-9]*)+(?![A-Za-z0-9_'\-])", open(file).read()):
            found.add(word)
    return found


def names():
    owned = declared()
    for word in locals_in_camel():
        owned.setdefault(word, False)
    kept = {n for n in owned if snake(n) == n}
    to = {}
    taken = {}
    for name in sorted(owned, key=lambda n: (not owned[n], "-" in n, n)):
        if not name[0].islower() or snake(name) == name:
            continue
        new = snake(name)
        if new in taken or (new in kept and "-" in name):
            new += "_lem"
        taken[new] = name
        to[name] = new
    # a definition that takes the place of a lemma's name: the lemma gives way
    for name, new in list(to.items()):
        if new in kept and "-" not in name:
            if owned[new]:
                sys.exit("respell: %s and %s are both definitions" % (name, new))
            to[new] = new + "_lem"
    return to


def respell(text, to, mark, inner=False):
    before = r"(?<![A-Za-z0-9_'\-✓])"

    pattern = re.compile(before + "(" + "|".join(sorted(map(re.escape, to), key=len, reverse=True)) + r")(?![A-Za-z0-9_'\-✓])")

    def put(part):
        def one(match):
            made = inner and "-" in match.group(1) and part[: match.start()].endswith(".")
            return match.group(1) if made else to[match.group(1)]

        return pattern.sub(one, part)

    lines = []
    for line in text.split("\n"):
        at = comment_starts(line, mark) if mark else 0
        code, said = line[:at], line[at:]
        lines.append(put(code) + re.sub(r"`[^`]*`", lambda m: put(m.group(0)), said))
    return "\n".join(lines)


def main():
    to = names()
    if "--list" in sys.argv:
        for name in sorted(to):
            print(name, to[name])
        return
    for file in sources("**/*.antt"):
        text = open(file).read()
        open(file, "w").write(respell(text, to, "--", inner=file.count("/") > 3))
    for file in sources("src/**/*.rt"):
        text = open(file).read()
        open(file, "w").write(respell(text, {n: v for n, v in to.items() if "-" not in n and "_" not in n}, "//"))


main()
