#!/usr/bin/env python3
"""Writes the names of fields, constructors and definitions that had dashes in snake case, in definitions, laws, proofs and must-fail edits.

usage: python3 tools/plain_words.py      at the top of the repository, after port.py and tools/snake_case.py: rewrites crates/ in place

A dash joins the two names of a lemma, as in `length-insert`; what is no lemma has none.
"""

import os
import re
import sys

NAMES = set(
    """
all-good answer-is answered-words answers-are answers-kept ascending-cons ascending-nil asked-words at-1 at-2 at-3 at-4 at-5 at-6 at-is bad-first-line
bad-step-line buffer-is chose-mr chose-mw chose-ryw chose-wfr clock-is closes-closed closes-open count-is exchange-back exchange-over exchanges-apart
few-places few-servers few-slots first-is first-write fit-more for-answers for-out for-steps for-table found-is is-bad is-behind is-full is-reply
is-sound is-there kind-4 kind-5 lasts-to-read lasts-to-reread lasts-to-write line-is moved-is next-is no-clock no-server now-closed now-open one-bad
open-slot opening-step opens-closed opens-open origin-is other-components other-logs other-slots other-vectors out-kept proper-close proper-exchange
proper-open proper-read proper-write read-at-0 read-at-1 read-second reads-behind reads-closed reads-served same-choice same-slots same-words
second-write server-is serves-it shows-last some-place some-server some-slot steps-kept ten-answers ten-in ten-steps text-is to-itself too-many-bytes
too-many-lines value-is was-closed was-exchanged was-open was-opened was-refused was-written with-room write-at-0 write-at-1 write-is writes-behind
writes-closed writes-full writes-none writes-taken wrote-first wrote-second
""".split()
)
NAME = re.compile(r"[A-Za-z_][\w'-]*")


# A constructor of script/Reply; behind a dot it is the name of a step of `collect`.
LINE = re.compile(r"(?<![\w'.-])next-line(?![\w'-])")


def in_plain_words(text):
    text = NAME.sub(lambda m: m.group().replace("-", "_") if m.group() in NAMES else m.group(), text)
    return LINE.sub("next_line", text)


def main():
    for folder, dirs, names in os.walk("crates"):
        dirs[:] = sorted(d for d in dirs if d != "out")
        for name in sorted(names):
            if not name.endswith((".antt", ".edit")):
                continue
            path = os.path.join(folder, name)
            with open(path, encoding="utf-8") as f:
                text = f.read()
            new = in_plain_words(text)
            if new != text:
                with open(path, "w", encoding="utf-8") as f:
                    f.write(new)
    return 0


if __name__ == "__main__":
    raise SystemExit(main())
