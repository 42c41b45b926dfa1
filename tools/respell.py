#!/usr/bin/env python3
"""Spells this repository's own definitions and lemmas as today's Rattle spells names.

usage: python3 tools/respell.py        at the top of the repository, once, behind port.py

Facts and types are in upper camel case, everything else is in snake case; a dash is left only where it joins the names of two
functions, as in follow-append. Functions of src/, strings, inputs and outputs keep their names. It rewrites the text of crates/
(.antt and .rt) and the code spans of README.md and docs/, a whole word at a time, and a second run changes nothing.
"""

import os
import re
import sys

# What is a name of antt's: it ends at a blank, a bracket, a dot, a comma, a semicolon, an at sign or a quotation mark.
WORD = re.compile(r'[^\s(){}.;,@"«»`]+')

FACTS = """
All-right Cut-right First-foreign First-wrong Follows-edges In-ranges In-table Index-of Makes-either Means-rule Notes-unread
Reads-back Tells-apart Word-read
""".split()

OTHERS = """
answers-same at-blank before-state by-refl by-sym by-trans before-unlisted behind-blank behind-last byte-capped byte-same byte-says closed-rule
comes-before decision-number dense-meaning dense-sound dense-table digit-ends digit-more digit-solid digits-end digits-solid
digits-stop edge-meaning edge-table edges-file edges-lead edges-out edges-same edges-sound entries-close entry-count entry-same
entry-size file-meaning first-same first-token first-version follow-end follow-step follow-within found-lists four-at from-index
glyph-small good-closes good-ranged good-same history-of in-gap index-out kind-byte kind-is kind-moved kind-name laid-moved
last-token laws-by-byte lead-below lead-leads lead-listed lead-unlisted lead-within leads-to letter-back letter-below
letter-digits letter-of letter-solid letters-after letters-back letters-below letters-fit letters-word lists-false lists-true
lower-part means-rule means-same next-past-letters next-past-states next-within no-foreign no-grown no-told not-all not-below
not-readable of-answer of-state or-closed other-printed printed-all printed-byte printed-more reads-back reason-fits
refused-not-good refused-same release-eq release-laws release-of rises-far row-place run-stops same-rule same-table saved-alike
says-from says-kind says-no some-already some-letter some-state some-way start-within state-before states-fit stays-good
table-file tells-apart there-decides to-index to-no to-yes tokens-after tokens-among tokens-spelled tokens-written trailer-of
trailer-place transitions-sound two-capped unreadable-grown unreadable-told upper-part verdict-at verdict-of verdict-of-byte
verdict-past verdict-place verdicts-close visible-printed walk-on walk-stops way-after with-header with-letter with-transitions
within-below wrong-moved yes-grown yes-no-laws yes-told h-is in-front l-is not-edges of-d of-e
""".split()

TABLE = {n: "".join(w[:1].upper() + w[1:] for w in n.split("-")) for n in FACTS} | {n: n.replace("-", "_") for n in OTHERS}

# In these files these words behind a dot are names that Rattle makes, of a variable of the code.
MADE = {("rulefile/proofs/rule_file/RuleFile/make/Answers.antt", "kind-is")}


def respelled(path, text):
    kept = {w for f, w in MADE if path.endswith(f)}

    def word(m):
        w = m[0]
        if w in kept and text[m.start() - 1 : m.start()] == ".":
            return w
        return TABLE.get(w, w)

    return WORD.sub(word, text)


def spans(text):
    """A page's text, with the words of its code spans respelled."""
    return re.sub(r"`[^`\n]+`", lambda m: respelled("", m[0]), text)


def main():
    if not os.path.isdir("crates"):
        print(__doc__)
        return 2
    pages = ["README.md"] + [os.path.join("docs", f) for f in sorted(os.listdir("docs")) if f.endswith(".md")]
    sources = []
    for folder, dirs, files in os.walk("crates"):
        dirs[:] = sorted(d for d in dirs if d not in ("out", "data", "must-fail"))
        sources += [os.path.join(folder, f) for f in sorted(files) if f.endswith((".rt", ".antt"))]
    for path in sources + pages:
        with open(path, encoding="utf-8") as f:
            old = f.read()
        new = spans(old) if path in pages else respelled(path, old)
        if new != old:
            with open(path, "w", encoding="utf-8") as f:
                f.write(new)
            print(path)
    return 0


if __name__ == "__main__":
    sys.exit(main())
