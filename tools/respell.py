#!/usr/bin/env python3
"""Brings the repository's own definitions and lemmas to today's spelling of names.

usage: python3 tools/respell.py        at the top, once, after the kit's port.py

Words are in snake case, types and facts in camel case; a dash stays where it joins two names of
definitions, as in bit-suc. Only whole names in .antt files, and in .rt files, are changed; no
function of src/ is among them.
"""

import os
import re
import sys

NAMES = {
    # lists
    "Gap-filled": "GapFilled",
    "Names-one-place": "NamesOnePlace",
    "answer-moved": "answer_moved",
    "answer-none": "answer_none",
    "bucket-again": "bucket_again",
    "bucket-of": "bucket_of",
    "gap-filled-by": "gap_filled_by",
    "gap-law": "gap_law",
    "getD-beside-gap": "get_or_beside_gap",
    "getD-gap": "get_or-last_into_gap",
    "has-place": "has_place",
    "has-place-is": "has_place_is",
    "last-as-list": "last_as_list",
    "last-into-gap": "last_into_gap",
    "length-gap": "length-last_into_gap",
    "local-again": "local_again",
    "local-of": "local_of",
    "places-cut": "places_cut",
    "places-filled": "places_filled",
    "position-again": "position_again",
    "position-made": "position_made",
    "position-of": "position_of",
    # masks
    "Highest-free": "HighestFree",
    "Lowest-free": "LowestFree",
    "and-digit": "and_digit",
    "and-other": "and_other",
    "bit-above-leading": "bit_above_leading",
    "bit-and": "bit-bit_and",
    "bit-at-leading": "bit_at_leading",
    "bit-at-trailing": "bit_at_trailing",
    "bit-below-trailing": "bit_below_trailing",
    "bit-far": "bit_far",
    "bit-into": "bit_into",
    "bit-of-zero": "bit_of_zero",
    "bit-or": "bit-bit_or",
    "bit-out": "bit_out",
    "bit-top": "bit_top",
    "bits-empty": "bits_empty",
    "bits-far": "bits_far",
    "bits-high": "bits_high",
    "bits-low": "bits_low",
    "first-free": "first_free",
    "free-high": "free_high",
    "free-low": "free_low",
    "greatest-found": "greatest_found",
    "highest-found": "highest_found",
    "highest-free": "highest_free",
    "highest-in-high": "highest_in_high",
    "highest-in-low": "highest_in_low",
    "highest-nowhere": "highest_nowhere",
    "in-high": "in_high",
    "in-low": "in_low",
    "least-found": "least_found",
    "lowest-found": "lowest_found",
    "lowest-free": "lowest_free",
    "lowest-in-high": "lowest_in_high",
    "lowest-in-low": "lowest_in_low",
    "lowest-like": "lowest_like",
    "lowest-nowhere": "lowest_nowhere",
    "or-digit": "or_digit",
    "taken-above": "taken_above",
    "taken-before": "taken_before",
    "taken-high": "taken_high",
    "taken-low": "taken_low",
    "word-empty": "word_empty",
    "words-empty": "words_empty",
    # known; the list has another name than the function that promises it
    "colour-of-one": "colour_of_one",
    "colour-of-two": "colour_of_two",
    "known-results": "result_list",
    # tray
    "Colour-by": "ColourBy",
    "Colour-for": "ColourFor",
    "Struck-out": "StruckOut",
    "Taken-in": "TakenIn",
    "by-position": "by_position",
    "err-is": "err_is",
    "full-eight": "full_eight",
    "here-len": "here_len",
    "insert-refused": "insert_refused",
    "new-empty": "new_empty",
    "ok-is": "ok_is",
    "old-is": "old_is",
    "others-len": "others_len",
    "placed-is": "placed_is",
    "remove-refused": "remove_refused",
    "zero-at": "zero_at",
}

NAME = re.compile(r"[^\W\d][\w']*(?:-[\w']+)*")


def main():
    top = os.path.join(os.getcwd(), "crates")
    if not os.path.isdir(top):
        sys.exit("respell: run it at the top of the repository")
    new = set(NAMES.values())
    taken, changed = set(), []
    for folder, dirs, files in os.walk(top):
        dirs[:] = sorted(d for d in dirs if d != "out")
        for name in sorted(files):
            if not name.endswith((".antt", ".rt")):
                continue
            path = os.path.join(folder, name)
            with open(path, encoding="utf-8") as f:
                old = f.read()
            if name.endswith(".antt"):
                taken |= new & set(NAME.findall(old))
            text = NAME.sub(lambda m: NAMES.get(m.group(), m.group()), old)
            if text != old:
                changed.append((path, text))
    if taken:
        sys.exit("respell: these stand already, and would fall together: " + ", ".join(sorted(taken)))
    for path, text in changed:
        with open(path, "w", encoding="utf-8") as f:
            f.write(text)
    print(f"respell: {len(changed)} files")


main()
