#!/usr/bin/env python3
"""Brings the names of definitions and lemmas to the spelling of today's Rattle: words in snake case, types and modules in camel case.

usage: python3 tools/respell.py [FOLDER]      once, after port.py, at the top of the repository (or in FOLDER)

Every word of crates/ that begins with a small letter and has a capital is turned: no function, field, string or exported name has one.
Two names that would fall together stand apart by the renamings of APART, made first.
"""

import os
import re
import sys

# a number is no word, so that 0xFB stays
WORD = re.compile(r"(?<![0-9A-Za-z_'])[A-Za-z_][A-Za-z0-9_']*")
MIXED = re.compile(r"[a-z_][A-Za-z0-9_']*[A-Z]")
# A lemma or a variable that already has the name that a definition gets: file, its word, its new word.
APART = [
    ("bpg_bits/proofs/Items.antt", "at_item", "at_item-located"),
    ("bpg_read_fields/proofs/AllFieldLaws.antt", "at_item", "at_item-located"),
    ("bpg_format/proofs/WriteLaws.antt", "at_zero", "at_zero-ok"),
    ("bpg_parts/proofs/PartLaws.antt", "entry_in", "entry_in-range"),
    ("bpg_export/proofs/CallLaws.antt", "entry_in", "entry_in-range"),
    ("bpg_cursor/proofs/cursor/first/Proof.antt", "first_step", "first_step-is"),
    ("bpg_segment_reader/proofs/ChunkLaws.antt", "full_size", "full_size-length"),
    ("bpg_format/proofs/SyntaxLaws.antt", "one_bit", "one_bit-encode"),
    ("bpg_format/proofs/FlagLaws.antt", "read_flags", "read_flags-ok"),
    ("bpg_format/proofs/ReadingRefusals.antt", "read_flags", "read_flags-refuse"),
    ("bpg_read_head/proofs/FlagLaws.antt", "read_flags", "read_flags-refuse"),
    ("bpg_read_survey/proofs/FileRead.antt", "read_head", "head_read"),
    ("bpg_frame_units/proofs/FrameLaws.antt", "wait_by", "wait_by-verdict"),
]


def snake(word):
    word = re.sub(r"([a-z0-9'])([A-Z])", r"\1_\2", word)
    return re.sub(r"([A-Z]+)([A-Z][a-z])", r"\1_\2", word).lower()


def turned(match):
    word = match.group(0)
    # `is_Slice` is a step that Rattle named after a variant
    return snake(word) if MIXED.match(word) and not re.match(r"(is|in)_[A-Z]", word) else word


def main(root):
    inside = os.path.join(root, "crates")
    for folder, folders, names in os.walk(inside):
        folders[:] = sorted(f for f in folders if f != "out")
        for name in sorted(names):
            if not name.endswith((".antt", ".rt", ".edit")):
                continue
            path = os.path.join(folder, name)
            with open(path, encoding="utf-8") as f:
                old = f.read()
            new = old
            for file, word, to in APART:
                if os.path.relpath(path, inside) == file:
                    new = re.sub(r"(?<![\w.'-])" + re.escape(word) + r"(?![\w'-])", to, new)
            new = WORD.sub(turned, new)
            if new != old:
                with open(path, "w", encoding="utf-8") as f:
                    f.write(new)


if __name__ == "__main__":
    main(sys.argv[1] if len(sys.argv) > 1 else ".")
