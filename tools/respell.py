#!/usr/bin/env python3
"""Brings the repository's own ghost names to the library's spelling: words in snake case, types in camel case.

usage: tools/respell.py [--dry]     at the top of the repository, once, after the kit's own script

A name is one that a file of crates/*/specs or crates/*/proofs declares: a definition, a lemma, a field, a helper in a
`where`. `camelCase` and `kebab-case` become `snake_case`; a lemma keeps the dashes that join names of functions, as
`length-tabulate` does. Types, modules, functions of src/, exported names, strings, inputs and outputs keep theirs.
It reads .antt and .rt files and the texts of must-fail edits, and fails where two names would fall together.
"""
import collections
import glob
import os
import re
import sys

# A name of either spelling: letters, digits, primes, subscripts, joined by dashes.
WORD = re.compile(r"[A-Za-z_ℤℕ][\w'ℤℕ₀-₉]*(?:[-·][\w'→≢ℤℕ₀-₉*+]+)*")
HEAD = re.compile(r"^(\s*)((?:(?:abbrev|unfoldable|pub|ruleset|instance) )*)([A-Za-z_][\w'₀-₉]*(?:[-·][\w'₀-₉]+)*) :(?= |$)")
RECORD = re.compile(r"^\s*(?:pub )?(?:record|data) ([A-Za-z_][\w'-]*)")
OPEN = re.compile(r"use ([\w.']+)\.\{([^}]*)\}")
# Functions of the library that a lemma's name may be joined of.
LIBRARY = set("length drop take get_or map append filter reverse set tabulate flat_map zero suc add mul sub div neg not and or cond every sum_of".split())
# Names that the library makes and a proof file cites.
MADE = re.compile(r"^(returns|loop|tie|statement|invariant|decreases|overflow_\w+|bounds|offset_bounds|nonzero_\w+|shared_slice\w*|shared_ref\w*|element|slice_bounds)\b")
# Where the rule's answer would fall together with another name, or reads badly.
BY_HAND = {
    "n·n": "n_dot_n",
    "n·n-is": "n_dot_n_is",
    "all-below": "every_below",
    "all-finite": "all_are_finite",
    "all_three": "all_three_lem",
    "both-unwrap": "both_unwrap_lem",
    "bwd-code": "bwd_code_lem",
    "draw-code": "draw_code_lem",
    "join-code": "join_code_lem",
    "edge-bwd": "edges_bwd",
    "is-nan": "is_nan_lem",
    "kept_from": "kept_from_lem",
    "kept_run": "kept_run_lem",
    "of-itself": "of_itself_lem",
    "sum_over": "sum_over_lem",
    "twoRuns": "two_runs_case",
    "weights-depth": "weights_depth_lem",
    "with-sum": "with_sum_lem",
    "get_d_tabulate": "get_or-tabulate",
    "get_d_any": "get_or_any",
    # fields, which have no dashes
    "h-least": "h_least",
    "w-least": "w_least",
    "gradients-kept": "gradients_kept",
    "final-from": "final_from",
    "final-shows": "final_shows",
    "final-spans": "final_spans",
    "full-shows": "full_shows",
    "full-spans": "full_spans",
    "one-face": "one_face",
    "second-entry": "second_entry",
    "empty-kept": "empty_kept",
}


def snake(word):
    """camelCase in snake case; a capital that stands alone stays, as the derivative's D does."""
    out = re.sub(r"(?<=[a-z0-9₀-₉])([A-Z])(?![A-Z])", lambda m: "_" + m.group(1).lower(), word)
    return out


def texts(root, pattern):
    for path in sorted(glob.glob(os.path.join(root, pattern), recursive=True)):
        if "/out/" not in path and "/target/" not in path:
            yield path


def outside(path):
    return not path.startswith("Rattle.") or re.match(r"Rattle\.(std|core|logic)\b", path)


def read(path):
    with open(path, encoding="utf-8") as f:
        return f.read()


def declared(root):
    """Each name that a file declares, with the files; and what is a definition, a field, or a type."""
    names, lemmas, types, foreign = collections.defaultdict(set), {}, set(), set()
    for path in texts(root, "crates/**/*.antt"):
        text = read(path)
        for m in OPEN.finditer(text):
            if outside(m.group(1)):
                for n in m.group(2).split(","):
                    foreign.add(n.strip().split(" as ")[0])
        for line in text.splitlines():
            m = RECORD.match(line)
            if m:
                types.add(m.group(1))
                continue
            m = HEAD.match(line)
            # a goal, and the proof of a function, have names that the library gives
            if m and not re.search(r" : tie\.|-spec : \{M ", line):
                names[m.group(3)].add(path)
                # a definition is marked; a lemma is not
                marked = "abbrev" in m.group(2) or "unfoldable" in m.group(2)
                lemmas[m.group(3)] = lemmas.get(m.group(3), True) and not marked
    return names, lemmas, types, foreign


def spelling(names, lemmas, types, foreign):
    functions = {snake(n).replace("-", "_") for n in names if not lemmas[n]} | LIBRARY
    turned = {}
    for n in sorted(names):
        if n in types or n in foreign or n[0].isupper() and "-" not in n or MADE.match(n):
            continue
        if n in BY_HAND:
            turned[n] = BY_HAND[n]
            continue
        parts = [snake(p) for p in n.split("-")]
        joined = "-" if lemmas[n] and len(parts) > 1 and all(p in functions for p in parts) else "_"
        new = joined.join(parts)
        if new != n:
            turned[n] = new
    return turned


def together(names, turned, foreign):
    """Names that would be one where they were two."""
    by_new = collections.defaultdict(set)
    for n in names:
        by_new[turned.get(n, n)].add(n)
    clashes = []
    for new, olds in sorted(by_new.items()):
        if len(olds) > 1 or (new in foreign and any(o != new for o in olds)):
            clashes.append((new, sorted(olds), new in foreign))
    return clashes


# Where a comment begins, of .antt, .rt and .edit files.
COMMENT = re.compile(r"(?:^|(?<=\s))--(?=\s|$)|//|^#(?!!?\[)", re.M)


def turn(text, turned):
    """The text with the names turned; a comment's formulas keep their middle dot."""

    def line(part):
        m = COMMENT.search(part)
        at = m.start() if m else len(part)
        name = lambda m: turned.get(m.group(0), m.group(0))
        word = lambda m: m.group(0) if "·" in m.group(0) else name(m)
        return WORD.sub(name, part[:at]) + WORD.sub(word, part[at:])

    return "\n".join(line(part) for part in text.split("\n"))


def main(argv):
    root = "."
    names, lemmas, types, foreign = declared(root)
    turned = spelling(names, lemmas, types, foreign)
    clashes = together(names, turned, foreign)
    if "--dry" in argv:
        for old, new in sorted(turned.items()):
            print(old, new, "lemma" if lemmas[old] else "definition")
    for c in clashes:
        print("together:", c)
    if clashes and "--dry" not in argv:
        return 1
    if "--dry" in argv:
        return 0
    count = 0
    for pattern in ("crates/**/*.antt", "crates/*/src/**/*.rt", "crates/*/must-fail/*.edit"):
        for path in texts(root, pattern):
            old = read(path)
            new = turn(old, turned)
            if new != old:
                with open(path, "w", encoding="utf-8") as f:
                    f.write(new)
                count += 1
    print(f"respell: {len(turned)} names, {count} files")
    return 0


if __name__ == "__main__":
    sys.exit(main(sys.argv[1:]))
