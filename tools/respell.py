#!/usr/bin/env python3
"""Brings the repository's own definitions and lemmas to today's spelling.

usage: tools/respell.py [--dry]     at the top of a checkout, once, right after the toolchain's port script

Types are in upper camel case (Is-type becomes IsType), every other word is in snake case (if-so becomes if_so). A word that ends with a question
mark, a decision, begins with `decide_`. Labels that Rattle makes for the goals of a function keep their dashes: in proofs/FUNCTION/ a word is turned only where a file of specs/ or a file of lemmas
declares it, or the file itself beside the goals, and not behind `goal.` or `c.`. Functions of src/, strings and inputs keep their spelling; so do names of the toolchain's library.
In docs/ and README.md a word is turned only between backticks.
"""
import collections
import glob
import re
import sys

NAME = re.compile(r'[^\s(){}.;,@"«»]+')
DASHED = re.compile(r"[A-Za-zℕ][A-Za-z0-9_'ℕ^]*(?:-[A-Za-z0-9_'ℕ^]+)*\??'?")
LIBRARY = re.compile(r"^\s*(?:ghost )?(?:pub )?use (?:Rattle\.(?:std|core|std_\w+)|borrow|lib|Prim|logic)\b[^{]*\{([^}]*)\}", re.M)
ANSWER = re.compile(r"/proofs/.*/[^/]+\.antt$")
# labels of goals, and what a goal's context is asked for first
LABEL = re.compile(r"(?<![^\s(])(goal|c|need|rules)\.$")
# words that do not follow the rule: the first two are functions, not types
BY_HAND = {
    "Tree-discrete": "tree_discrete",
    "Trees-discrete": "trees_discrete",
    # a function of src/ has the plain turning
    "comma-separated": "comma_separated_text",
    "over-cells": "over_cells_text",
    "of-classes": "of_classes_text",
    "with-noun": "with_noun_text",
    "word-text": "text_of_word",
}


def files(pattern):
    return sorted(p for p in glob.glob(pattern, recursive=True) if "/out/" not in p)


def own(name):
    return "-" in name or name.endswith("?") or "^" in name


def turned(name):
    if name in BY_HAND:
        return BY_HAND[name]
    bare = name.replace("^", "_to_")
    if bare.endswith("?"):
        bare = "decide-" + bare[:-1] if not bare.startswith("is-") else "decide-" + bare[3:-1]
    if bare[0].isupper() and bare[0].isascii():
        return "".join(p[:1].upper() + p[1:] if i else p for i, p in enumerate(bare.split("-")))
    return re.sub(r"(?<=[a-z])[A-Z]", lambda m: "_" + m.group(0).lower(), bare).replace("-", "_")


def code_and_comments(text):
    """The parts of antt's text: (is it code, part)."""
    out, i = [], 0
    for line in text.splitlines(keepends=True):
        m = re.search(r"(?:^|(?<=\s))--(?=\s|$)", line)
        if m:
            out += [(True, line[: m.start()]), (False, line[m.start():])]
        else:
            out.append((True, line))
    return out


def words(part):
    return [w for w in NAME.findall(part)]


def library_names(text):
    out = set()
    for m in LIBRARY.finditer(text):
        for item in m.group(1).split(","):
            out |= set(item.replace(" as ", " ").split())
    return out


def collect():
    names, everything = set(), collections.defaultdict(set)
    for p in files("crates/*/specs/**/*.antt") + files("crates/*/proofs/**/*.antt"):
        text = open(p, encoding="utf-8").read()
        kept = library_names(text)
        for is_code, part in code_and_comments(text):
            if not is_code:
                continue
            part = re.sub(r'"[^"\n]*"', '""', part)
            for w in words(part):
                everything[w].add(p)
                if own(w) and DASHED.fullmatch(w) and w not in kept and not ANSWER.search(p):
                    names.add(w)
        if ANSWER.search(p):
            for w in re.findall(r"^(?:pub )?([a-z]\S*) :\s+(?!goal\.)", text, re.M):
                if own(w) and DASHED.fullmatch(w) and not re.match("(?:invariant|decreases|loop)-", w):
                    names.add(w)
    return {w: turned(w) for w in names}, everything


def turn_words(part, table, kept, answers):
    out, last = [], 0
    for m in NAME.finditer(part):
        w = m.group(0)
        if w not in table or w in kept:
            continue
        if answers and LABEL.search(part[: m.start()]):
            continue
        out += [part[last:m.start()], table[w]]
        last = m.end()
    return "".join(out) + part[last:]


def outside_strings(part, turn):
    bits = re.split(r'("(?:[^"\\\n]|\\.)*")', part)
    return "".join(b if k % 2 else turn(b) for k, b in enumerate(bits))


def in_backticks(text, table):
    return re.sub(r"`[^`\n]+`", lambda m: turn_words(m.group(0)[:-1].replace("`", "` ", 1), table, set(), False).replace("` ", "`", 1) + "`", text)


def turn_antt(text, table, p):
    kept, answers = library_names(text), bool(ANSWER.search(p))
    if answers:
        # a head that answers a goal is Rattle's label
        kept = kept | set(re.findall(r"^(?:pub )?(\S+) :\s+goal\.", text, re.M))
    out = []
    for is_code, part in code_and_comments(text):
        out.append(outside_strings(part, lambda b: turn_words(b, table, kept, answers)) if is_code else in_backticks(part, table))
    return "".join(out)


def turn_rt(text, table):
    out = []
    for line in text.splitlines(keepends=True):
        m = re.match(r"\s*//", line)
        if m:
            out.append(in_backticks(line, table))
        else:
            out.append(outside_strings(line, lambda b: turn_words(b, table, set(), False)))
    return "".join(out)


def main(argv):
    table, everything = collect()
    by_new = collections.defaultdict(set)
    for old, new in table.items():
        by_new[new].add(old)
    bad = 0
    for new, olds in sorted(by_new.items()):
        if len(olds) > 1:
            print("fall together:", new, sorted(olds))
            bad += 1
        if new in everything and "--dry" in argv:
            print("stands already:", new, sorted(olds), sorted(set().union(*(everything[o] for o in olds)) & everything[new])[:3])
    if "--dry" in argv:
        for old, new in sorted(table.items()):
            print(old, "->", new)
        return 0
    if bad:
        print("words fall together: nothing is written")
        return 1
    n = 0
    for pattern, turn in (("crates/*/specs/**/*.antt", None), ("crates/*/proofs/**/*.antt", None), ("crates/*/src/**/*.rt", turn_rt), ("docs/*.md", in_backticks), ("README.md", in_backticks)):
        for p in files(pattern):
            text = open(p, encoding="utf-8").read()
            new = turn_antt(text, table, p) if turn is None else turn(text, table)
            if new != text:
                n += 1
                with open(p, "w", encoding="utf-8") as f:
                    f.write(new)
    print(f"respell: {len(table)} words, {n} files")
    return 0


if __name__ == "__main__":
    raise SystemExit(main(sys.argv[1:]))
