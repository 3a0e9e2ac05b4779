#!/usr/bin/env python3
"""Brings the names of this repository's own definitions and lemmas to snake case, once, after the kit's port.py.

usage: python3 tools/respell.py [--look]      at the top of the repository; --look writes nothing and says what falls together

A name is one that specs/*.antt or proofs/*.antt defines: a definition, a lemma, a field, a constructor, a ruleset. What a library
or the check itself names keeps its spelling, as do types and modules, functions of src/, strings and comments' prose.
"""
import glob
import os
import re
import sys

# a name is what stands between these
TOKEN = re.compile(r"[^\s(){}\[\],;.⟦⟧⌜⌝|«»\"]+")
SIGNATURE = re.compile(r"^\s*(?:abbrev |unfoldable |pub )*((?:[^\s(){}\[\],;.:|=]+ )+)(?:\{[^}]*\} )?: ")
NAMED = re.compile(r"^\s*(?:pub )?(?:ruleset|syntax|postulate) ([^\s=]+)")
WORDS = {"let", "module", "data", "record", "use", "where", "in", "λ", "elim", "--"}
# what the check names in proof folders, and an own name must not be taken for
GENERATED = {"invariant-loop", "decreases-loop"}
# Of two names that fall together, a definition in camel case and a lemma or a field in words with dashes, the first takes the plain
# name and the second ends in `_is`; these read better otherwise.
INSTEAD = {
    "is-full": "full_stands",
    "is-patch": "patch_stands",
    "in-page": "within_page",
    "in-byte": "within_byte",
    "pair-in": "pair_within",
    "by-kind": "by_its_kind",
    "cell-of": "cell_of_is",
    "slot-of": "slot_of_is",
    "pair-of": "pair_of_is",
    "full-fits": "full_fits_at",
    "patch-fits": "patch_fits_at",
    "told-all": "all_told",
    "slot-first": "slot_before_page",
}
# Names that port.py had made snake case before, in the files where another name would now fall together with them.
BESIDE = {
    "crates/differ/specs/DifferLaws.antt": {"after_last": "after_last_tells"},
    "crates/writer/proofs/Chunks.antt": {"after_last": "after_last_tells"},
    "crates/writer/proofs/count/excess_after/Proof.antt": {"after_last": "after_last_tells"},
    "crates/entry_reader/specs/TurnLaws.antt": {"by_tests": "by_tests_is", "turn_by": "turn_by_is"},
    "crates/entry_reader/specs/Given.antt": {"by_tests": "by_tests_is"},
    "crates/entry_reader/specs/Wrong.antt": {"going_on": "going_on_is"},
    "crates/headers/specs/HeaderLaws.antt": {"head_rows": "head_rows_is"},
    "crates/headers/proofs/head_fault/Proof.antt": {"head_rows": "head_rows_is"},
    "crates/promises/specs/ReadLaws.antt": {"read_done": "read_done_is"},
    "crates/store/specs/BlockLaws.antt": {"kind_at": "kind_at_is"},
    "crates/building/specs/MapLaws.antt": {"kind_at": "kind_at_is"},
    "crates/sweeping/specs/SweepLaws.antt": {"kind_at": "kind_at_is"},
    "crates/slots/specs/SlotLaws.antt": {"length_at": "length_at_is"},
    "crates/slots/specs/Meaning.antt": {"length_at": "length_at_is"},
    "crates/slots/proofs/patch_length/Proof.antt": {"length_at": "length_at_is"},
}


def files():
    return sorted(glob.glob("crates/*/specs/**/*.antt", recursive=True)) + sorted(glob.glob("crates/*/proofs/**/*.antt", recursive=True))


def sources():
    return sorted(glob.glob("crates/*/src/**/*.rt", recursive=True))


def snake(name):
    if name in INSTEAD:
        return INSTEAD[name]
    parts = []
    for part in name.split("-"):
        parts.append(re.sub(r"(?<=[a-z0-9'])([A-Z])", lambda m: "_" + m.group(1).lower(), part))
    return "_".join(parts)


def respelled(found):
    """Each own name with its new spelling, no two alike."""
    names = {n: snake(n) for n in found}
    plain = {}
    for old in names:
        plain.setdefault(names[old], []).append(old)
    for new, olds in plain.items():
        if len(olds) > 1:
            for old in olds:
                if "-" in old:
                    names[old] = new + "_is"
    return names


def own_names():
    found = {}
    for path in files():
        if re.match(r"crates/[^/]+/proofs/[^/]+/", path):
            continue
        with open(path, encoding="utf-8") as f:
            for line in f:
                if line.lstrip().startswith("--"):
                    continue
                names = []
                m = SIGNATURE.match(line)
                if m:
                    names = m.group(1).split()
                    if names[0] in WORDS or any(w in WORDS for w in names):
                        names = []
                m = NAMED.match(line)
                if m:
                    names = [m.group(1)]
                names += re.findall(r"[\w'-]+ as ([\w'-]+)", line) if line.lstrip().startswith("use ") else []
                for name in names:
                    if name in GENERATED or not re.match(r"^[a-z]", name):
                        continue
                    if "-" in name or re.search(r"[A-Z]", name):
                        found.setdefault(name, set()).add(path)
    for path in sources():
        with open(path, encoding="utf-8") as f:
            for use in re.findall(r"ghost use ([^;]*);", f.read()):
                for name in re.findall(r"[\w'-]+ as ([\w'-]+)", use):
                    if re.match(r"^[a-z]", name) and ("-" in name or re.search(r"[A-Z]", name)):
                        found.setdefault(name, set()).add(path)
    return found


def ghost_spans(text):
    """The stretches of a source that are ghost: clauses, ghost items, attributes of tactics."""
    for m in re.finditer(r"ghost use [^;]*;|#!?\[tactic\([^\]]*\]", text):
        yield m.start(), m.end()
    for m in re.finditer(r"\b(?:requires|ensures|ghost|invariant|decreases)\*?(?: [a-z_0-9]+:?)? \{", text):
        depth, i = 1, m.end()
        while depth and i < len(text):
            depth += {"{": 1, "}": -1}.get(text[i], 0)
            i += 1
        yield m.end(), i


def turn_line(line, names):
    return TOKEN.sub(lambda m: names.get(m.group(0), m.group(0)), line)


def turn_antt(text, names):
    out = []
    for line in text.split("\n"):
        code, dash, said = line.partition("--")
        # a comment begins at the line's start or after a space
        if dash and code and not code.endswith(" "):
            code, dash, said = line, "", ""
        said = re.sub(r"`([^`]+)`", lambda m: "`" + turn_line(m.group(1), names) + "`", said)
        out.append(turn_line(code, names) + dash + said)
    return "\n".join(out)


def turn_rt(text, names):
    out, last = [], 0
    for start, end in sorted(ghost_spans(text)):
        if start < last:
            continue
        out.append(text[last:start])
        out.append(turn_line(text[start:end], names))
        last = end
    out.append(text[last:])
    return "".join(out)


def main(argv):
    found = own_names()
    names = respelled(found)
    tokens = {}
    for path in files() + sources():
        with open(path, encoding="utf-8") as f:
            text = f.read()
        for t in set(TOKEN.findall(text)):
            tokens.setdefault(t, set()).add(path)
    back = {}
    for old, new in names.items():
        back.setdefault(new, []).append(old)
    clash = 0
    for new, olds in sorted(back.items()):
        if len(olds) > 1:
            clash += 1
            print("fall together:", new, "<-", ", ".join(olds), {o: sorted(found[o]) for o in olds})
        if new in tokens:
            both = sorted(p for p in tokens[new] if any(p in tokens.get(o, ()) for o in olds))
            print("stands already:", new, "<-", ", ".join(olds), "in", sorted(tokens[new])[:4], "both in", both[:6])
    print(len(names), "names,", clash, "fall together")
    if "--look" in argv:
        return 0
    for path in files() + sources():
        with open(path, encoding="utf-8") as f:
            text = f.read()
        here = names | BESIDE.get(path, {})
        new = (turn_rt if path.endswith(".rt") else turn_antt)(text, here)
        if new != text:
            with open(path, "w", encoding="utf-8") as f:
                f.write(new)
    return 0


if __name__ == "__main__":
    raise SystemExit(main(sys.argv[1:]))
