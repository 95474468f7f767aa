#!/usr/bin/env python3
"""Brings this repository's own definitions, lemmas and record fields to the spelling of today's Rattle.

Words are joined by `_`. A dash stays where it joins the names of two functions, as in `ones-members` and `length-pieces`.
Run once, at the top of the repository, after the kit's port.py; a second run changes nothing. Names of src/, and names
that Rattle makes itself (goals, measures, invariants), are not touched.
"""
import os
import re
import sys

NAMES = """
alike-tells b-most cells-more class-at class-in columns-of cond-tick coordinator-of count-front count-list count-more
count-weighed counts-at decision-refusal decodes-as e-most first-again first-empty first-new first-shown forge-refusal
forged-for-0 forged-for-this holders-in holders-list in-before-only in-day in-now-only in-phase in-range is-⊥ l-most
left-class lowest-is lowest-more lowest-none lowest-stays minutes-of never-seated numbers-from open-refusal opening-in
others-in others-list pieces-split plain-shares proposals-more same-allowed same-values seat-refusal seated-before
sent-in set-of setpoint-rules sets-in sheet-rules stage-of stamp-honest stamps-lawful standings-more standings-of
table-lawful tenths-of terms-of text-first text-more text-push times-t was-faulty was-there window-rules
with-code-among words-from zero-value now-only before-only coordinator-row zero-off
line-4 line-5 line-6 line-7 line-9 line-11 line-12 line-13 line-14 line-17 line-18 line-19 line-20 line-22 line-23
line-24 line-26 line-27 line-28 line-29 line-33 line-35 line-39 line-41 line-44 line-45 line-48 line-49
""".split()

# a letter of an antt name; a name ends where none follows
LETTER = r"[\w'⊥-]"
FIND = re.compile(r"(?<!" + LETTER + r")(" + "|".join(sorted(map(re.escape, NAMES), key=len, reverse=True)) + r")(?!" + LETTER + ")")


def sources(top):
    for folder, inner, files in os.walk(os.path.join(top, "crates")):
        inner[:] = sorted(d for d in inner if d != "out")
        for name in sorted(files):
            if name.endswith((".rt", ".antt")):
                yield os.path.join(folder, name)


def main():
    clashes = set()
    for path in sources("."):
        with open(path, encoding="utf-8") as f:
            text = f.read()
        for name in set(FIND.findall(text)):
            new = name.replace("-", "_")
            if re.search(r"(?<!" + LETTER + ")" + re.escape(new) + r"(?!" + LETTER + ")", text):
                clashes.add(f"{path}: {name} and {new}")
        turned = FIND.sub(lambda m: m.group(1).replace("-", "_"), text)
        if turned != text:
            with open(path, "w", encoding="utf-8") as f:
                f.write(turned)
    for line in sorted(clashes):
        print("two names fall together in " + line)
    return 1 if clashes else 0


if __name__ == "__main__":
    sys.exit(main())
