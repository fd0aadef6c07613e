#!/usr/bin/env python3
"""Brings this repository's own definitions and lemmas to today's spelling: words in snake case.

usage: python3 tools/respell.py            at the top of a checkout in which port.py ran, once
       python3 tools/respell.py --names    prints each old name and its new one, and changes nothing

Functions of src/, exported C names, strings, inputs and outputs keep their names: only names that a file of specs/ or a
lemma file of proofs/ declares are turned, in .rt and .antt files. Where two names would fall together, KEPT_APART says
what the second is called.
"""

import glob
import re
import sys

NAME = r"[^\W\d][\w'₀-₉-]*"
WORDS = {"abbrev", "unfoldable", "pub", "data", "record", "module", "let", "use"}

# an old name whose plain spelling another name has: what it is called
KEPT_APART = {
    "all-of": "all_from_each",
    "all-quick": "all_quick_lem",
    "board-sound": "board_is_sound",
    "command-of": "command_of_words",
    "edge-counted": "edge_is_counted",
    "kind-of": "kind_in_range",
    "rank-in": "rank_in_read",
    "rouses-in": "rouses_in_read",
    "takes-effect": "takes_effect_same",
    "winner-in": "winner_in_facts",
}

# lemmas named by the two functions of their left side, which a dash joins
JOINED = {"bit-bit_and", "bit-bit_or", "bit-bit_xor"}

# names that port.py let fall together: in files below the folder, the name is another
PARTED = {
    "crates/feeding/": {"rest_of": "rest_taken"},
}


def plain(name):
    """A name in snake case: `isPending` is `is_pending`, `sum-ext` is `sum_ext`."""
    return re.sub(r"(?<=[a-z0-9])([A-Z])", lambda m: "_" + m.group(1).lower(), name).replace("-", "_")


def turned(name):
    return name not in JOINED and name[0].islower() and (re.search("[A-Z]", name) or "-" in name)


def declared():
    files = glob.glob("crates/*/specs/*.antt") + glob.glob("crates/*/proofs/*.antt")
    names = {}
    for path in sorted(files):
        with open(path, encoding="utf-8") as f:
            for line in f:
                for name in heads(line):
                    names.setdefault(name, []).append(path)
    return names


def heads(line):
    """The names that a line declares: `pub one two : TYPE`, `pub record One (s : State) : Type 0`."""
    head = re.split(r" :(?: |$)| [({]", line.strip())[0]
    words = [w for w in head.split() if w not in WORDS]
    plain_words = all(re.fullmatch(NAME, w) for w in words)
    return words if re.search(r" :(?: |$)", line.rstrip()) and plain_words and "let" not in head.split() else []


def spelling(names):
    return {n: KEPT_APART.get(n, plain(n)) for n in names if turned(n)}


def main():
    names = declared()
    new = spelling(names)
    if sys.argv[1:] == ["--names"]:
        for old in sorted(new):
            print(old, new[old])
        return
    # In the proof of a function `w.n-is` is a name that Rattle makes.
    made = re.compile(r"crates/[^/]+/proofs/.*/")
    word = re.compile(r"(?<![\w'₀-₉-])(" + "|".join(sorted(map(re.escape, new), key=len, reverse=True)) + r")(?![\w'₀-₉-])")
    for path in sorted(glob.glob("crates/**/*.antt", recursive=True) + glob.glob("crates/**/*.rt", recursive=True)):
        with open(path, encoding="utf-8") as f:
            old = f.read()
        own = made.match(path)
        text = word.sub(lambda m: m.group(0) if own and m.group(0).endswith("-is") and old[m.start() - 1] == "." else new[m.group(1)], old)
        for folder, apart in PARTED.items():
            if path.startswith(folder):
                for one, other in apart.items():
                    text = re.sub(r"(?<![\w'₀-₉-])" + one + r"(?![\w'₀-₉-])", other, text)
        if text != old:
            with open(path, "w", encoding="utf-8") as f:
                f.write(text)


if __name__ == "__main__":
    main()
