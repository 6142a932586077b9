#!/usr/bin/env python3
"""Brings the repository's own definitions and lemmas to snake case: isInputs is is_inputs, and the part of live-atOne is at_one.

usage: respell.py [--dry]    at the top of the repository, once, right after the kit's port.py
"""
import pathlib
import re
import sys

# A word that begins small and has a capital behind a small letter or a digit; names of the kit keep theirs behind an underscore.
WORD = re.compile(r"(?<![A-Za-z0-9_'′\\])[a-z][a-z0-9]*(?:[A-Z][a-z0-9]*)+(?![A-Za-z0-9_])")
KIT = {"ownVal"}

# Lemmas that the kit's script has spelled as the definitions they speak of will be.
LEMMAS = re.compile(r"(?<![A-Za-z0-9_'\-.])(first_rows|step_in|rows_in|on_read)(?![A-Za-z0-9_'\-])")


def snake(word):
    if word in KIT:
        return word
    return re.sub(r"(?<=[a-z0-9])([A-Z])", r"_\1", word).lower()


def files():
    for pattern in ("crates/**/*.antt", "crates/**/*.rt", "crates/**/*.edit", "docs/*.md", "README.md"):
        for path in sorted(pathlib.Path(".").glob(pattern)):
            if "out" not in path.parts and "PORT" not in path.name:
                yield path


def main():
    dry = "--dry" in sys.argv
    if not any(WORD.search(path.read_text(encoding="utf-8")) for path in files() if path.suffix == ".antt"):
        print("spelled already")
        return
    for path in files():
        text = path.read_text(encoding="utf-8")
        words = set(WORD.findall(text))
        there = set(re.findall(r"[A-Za-z0-9_']+", text))
        for word in sorted(words):
            if snake(word) in there and snake(word) != word:
                print(f"look: {path}: {word} falls together with {snake(word)}")
        if path.suffix == ".antt":
            text_new = LEMMAS.sub(r"\1_lem", text)
        else:
            text_new = text
        new = WORD.sub(lambda m: snake(m.group(0)), text_new)
        if new != text and not dry:
            path.write_text(new, encoding="utf-8")


main()
