#!/usr/bin/env python3
"""Spells the repository's own names as Rattle's library spells its own: words and lemmas in snake case, types and modules as they are.

    python3 tools/respell.py     at the top, once, right after the toolchain's own port.py

In specs/, proofs/, contracts and must-fail edits `countOf` becomes `count_of` and `length-laidOut` becomes `length-laid_out`. Texts between
quotes, Rust's types and names of one capital, as `gX`, stay. Where the new name is that of a lemma already, that lemma gets `_lem` behind it.
"""

import pathlib
import re

ROOT = pathlib.Path(__file__).resolve().parent.parent

# Lemmas that would have the name of the definition that they speak of.
LEMMAS = "all_in fields_in heap_len in_list in_order is_right laid_out lists_at no_pairs no_plain plain_by same_then slots_at turn_is".split()

WORD = re.compile(r"(?<![\w'])[A-Za-z_ℓμ][A-Za-z0-9_'ℓμ]*")
STRING = re.compile(r'"(?:[^"\\]|\\.)*"|\bb\'(?:[^\'\\]|\\.)\'')
LEMMA = re.compile(r"(?<![\w.'-])(" + "|".join(LEMMAS) + r")(?![\w'-])")


def snake(match):
    word = match.group(0)
    if not word[0].islower() or re.fullmatch(r"[a-z][A-Z]", word) or word == "xHH":
        return word
    return re.sub(r"(?<=[a-z0-9_'])([A-Z])", lambda capital: "_" + capital.group(1).lower(), word)


def outside_strings(text, turn):
    made, end = [], 0
    for string in STRING.finditer(text):
        made += [turn(text[end : string.start()]), string.group(0)]
        end = string.end()
    return "".join(made + [turn(text[end:])])


def lemmas(text):
    """In proofs and definitions a bare name is no function's, but for the last part of a path."""
    return LEMMA.sub(r"\1_lem", text)


def turned(path, text):
    def line(one):
        if path.suffix == ".antt":
            one = lemmas(one) if not one.startswith("--") else one
        return outside_strings(one, lambda part: WORD.sub(snake, part))

    return "".join(line(one) for one in text.splitlines(keepends=True))


def main():
    for folder in ["specs", "proofs", "src", "must-fail"]:
        for path in sorted((ROOT / "crates").glob(f"*/{folder}/**/*")):
            if path.suffix in {".antt", ".rt", ".edit"}:
                text = path.read_text()
                made = turned(path, text)
                if made != text:
                    path.write_text(made)


if __name__ == "__main__":
    main()
