#!/usr/bin/env python3
"""Respells this repository's own definitions and lemmas: words in snake case, as Rattle's library has them.

usage: python3 tools/respell.py      at the top, once, after the kit's own port script

    roomNumber -> room_number        sets-cut -> sets_cut        LETTER-E -> letter_e

A name is renamed if specs/ or proofs/ declare it. Names of src/, of types and of the library stay, and so do the names that Rattle
makes for the steps of a function, which a Proof.antt only repeats. A dash between the names of two functions stays. Where a lemma would
get its function's name it ends in _lem. It fits the tree that the kit's port script leaves, and no later one, in which it would rename
what Rattle names (overflow_mul-result): there it stops.
"""

import glob
import re

WORD = r"[^\s(){}.;,@\"«»\[\]\\]+"
DECLARED = re.compile(r"^\s*(?:(?:abbrev|unfoldable|pub|record|data|ruleset)\s+)*(" + WORD + r")\s*:(?!=)\s")
ANSWER = re.compile(r"^\s*(" + WORD + r")\s*:\s*tie\.(Need|Inv|Mea|the_)")
TOKEN = re.compile(r"(--[^\n]*|//[^\n]*|b?\"(?:[^\"\\]|\\.)*\")|(" + WORD + r")")

# A dash stays between these and another function's name, as the library writes it.
FUNCTIONS = {"length", "append", "samples", "bytes", "sets"}

# Names that would fall together with another one, or that say too little in the new spelling.
CHOSEN = {
    "other-kind": "other_kind_lem", "det-most": "det_most_lem", "begin-number": "begin_number_lem", "begin-mark": "begin_mark_lem",
    "number-at": "number_at_lem", "from-bytes-answers": "from_bytes_answers_lem", "to-bytes-answers": "to_bytes_answers_lem",
    "begin-answers": "begin_answers_lem", "encode-number": "encode_number_lem", "encode-answers": "encode_answers_lem",
    "decode-number": "decode_number_lem", "decode-answers": "decode_answers_lem", "encoder-begun": "encoder_begun_lem",
    "decoder-begun": "decoder_begun_lem", "encoder-in-bounds": "encoder_in_bounds_lem", "decoder-in-bounds": "decoder_in_bounds_lem",
    "allIn": "each_in", "zero-start": "zero_start_lem", "read-line": "read_line_lem", "read-field": "read_field_lem",
    "read-fields": "read_fields_lem", "first-line": "first_line_lem", "after-tab": "after_tab_lem",
    "LETTER-E": "letter_e", "LETTER-D": "letter_d", "LETTER-Z": "letter_z", "LETTER-S": "letter_s", "QMF-COEFFS": "QMF_COEFFS",
}
IN_ONE_FILE = {
    "crates/mark/proofs/Either.antt": {"no_room": "no_room_lem"},
    "crates/border/proofs/Laws.antt": {"code_out": "code_out_lem"},
}


def files(*patterns):
    return sorted(p for pattern in patterns for p in glob.glob(pattern, recursive=True) if "/out/" not in p)


def read(path):
    with open(path, encoding="utf-8", newline="") as f:
        return f.read()


def declared():
    """The names that specs/ and proofs/ declare, but for the answers to goals."""
    found = set()
    for path in files("crates/*/specs/**/*.antt", "crates/*/proofs/**/*.antt"):
        for line in read(path).split("\n"):
            if line.lstrip().startswith(("--", "use ", "pub mod ", "mod ", "let ", "in ")) or ANSWER.match(line):
                continue
            m = DECLARED.match(line)
            if m:
                found.add(m.group(1))
    return found


def snake(name):
    if name in CHOSEN:
        return CHOSEN[name]
    if re.match(r"[a-z]+[a-z0-9]*[A-Z]", name):
        name = re.sub(r"(?<=[a-z0-9])[A-Z]", lambda m: "_" + m.group().lower(), name)
    parts = name.split("-")
    if "" in parts or not parts[0][0].isalpha() or not name[0].islower():
        return name
    out = parts[0]
    for before, part in zip(parts, parts[1:]):
        out += ("-" if before in FUNCTIONS and part in FUNCTIONS else "_") + part
    return out


def turn(text, names):
    return TOKEN.sub(lambda m: m.group(1) or names.get(m.group(2), m.group(2)), text)


def main():
    if files("crates/*/proofs/**/Answers.antt"):
        raise SystemExit("respell: this tree is past the port; nothing was changed")
    names = {n: snake(n) for n in declared()}
    names = {old: new for old, new in names.items() if old != new}
    kept = set(names.values())
    for path in files("crates/*/src/**/*.rt", "crates/*/specs/**/*.antt", "crates/*/proofs/**/*.antt", "crates/*/must-fail/*.edit"):
        text = read(path)
        here = set(re.findall(WORD, re.sub(r"--[^\n]*|//[^\n]*", "", text)))
        for new in sorted(here & kept):
            if any(names.get(old) == new for old in here):
                print(f"look: {path}: {new} stood there already")
        own = {**names, **IN_ONE_FILE.get(path, {})}
        turned = turn(text, own)
        if turned != text:
            with open(path, "w", encoding="utf-8", newline="") as f:
                f.write(turned)
    print(f"{len(names)} names respelled")


if __name__ == "__main__":
    main()
