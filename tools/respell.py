#!/usr/bin/env python3
"""Brings the definitions and lemmas of this repository to today's spelling: words in snake case, a dash only where a lemma's name joins two names.

usage: python3 tools/respell.py        at the top of the repository, once, after the toolchain's own script

It goes by text: every .rt and .antt file below crates/, whole names only. Names in strings stay. It stops, and writes nothing, where a new name stands there already.
"""

import glob
import re
import sys

# Definitions of specs/: what contracts name.
DEFINITIONS = "all-as all-inside call-of disk-of drawing-of durable-len hex-digit hex-of images-of needs-sync no-comma optional-as pair-cut resized-to result-told start-told step-number word-as try-write yes-no blob-number write-pieces-of write-of try-write-of resize-of flat-of bad-start"
CAPITALS = {"isDigit": "is_digit", "isHex": "is_hex"}

# Names that may stand there already, since they are the code's and not antt's: a function of src/ and the word for what it returns,
# a field of a struct and the field of the record that mirrors it.
OF_THE_CODE = {"hex_digit", "needs_sync", "is_digit", "images_of", "durable_len", "content_fits", "durable_fits"}

# Lemmas that join the names of two definitions keep that dash.
JOINED = {
    "at-laid-above": "at-laid_above",
    "at-laid-below": "at-laid_below",
    "at-laid-in": "at-laid_in",
    "at-padded": "at-padded",
    "at-resized": "at-resized",
    "at-zeros": "at-zeros",
    "length-area": "length-area",
    "length-laid": "length-laid",
    "length-laid-within": "length-laid_within",
    "length-resized": "length-resized",
    "paste-laid": "paste-laid",
    "put-laid": "put-laid",
}

LEMMAS = """
all-allowed and-false and-true ascii-from asks-limits asks-sure at-blank at-end at-laid-above at-laid-below at-laid-in at-letter at-padded at-resized at-zeros
behind-same beyond-merges both-parts buffered-length bytes-all bytes-more call-done carries-first carries-more carries-rest cond-false cond-true content-fits
content-part content-there copy-content copy-durable cut-model direct-certain drained-sized durable-fits each-ends empty-fits ended-there every-all every-stops
fault-ok fine-by finishes-content finishes-limit finishes-sure flushed-empty flushed-fits flushed-model flushed-stays flushes-certain flushes-stays here-empty
here-fault here-inside here-laid here-length here-room holding-own inside-bounds inside-more laid-is laid-nothing lay-behind lay-content laying-ends length-area
length-laid length-laid-within length-resized made-consistent merged-none merges-certain merges-model mixed-new mixed-old none-certain nothing-limits nothing-stays
nothing-sure or-false or-true part-front parts-behind paste-laid pieces-stay placed-model places-certain pushed-before put-laid reads-told ready-again resize-behind
resize-certain resize-content resize-model resized-changed resizes-limit resizes-stays resizes-sure run-certain run-done run-model run-stays same-fine settled-from
settled-synced stays-consistent stays-trans still-good store-resizes-content store-resizes-limits store-resizes-sure store-syncs-content
store-syncs-limits store-writes-content store-writes-limits store-writes-sure sync-writes-limit sync-writes-sure sync-written syncs-dirty syncs-from syncs-from-content
syncs-from-limits syncs-limit syncs-stays syncs-sure tested-row then-certain then-limits then-sure told-err told-ok total-more tried-fits value-all value-more value-past
waits-content waits-from-content waits-from-limits waits-from-sure waits-limits waits-sure within-merges word-missing word-there writes-by writes-from-content
writes-from-limits writes-from-sure writes-limit writes-sure written-model wrote-changed
resize-good merges-stays direct-sized told-read copied-length direct-fits direct-stays places-stays first-stays both-inside settled-disk moved-sized resized-fits
above-stays first-inside within-tip within-fits rest-inside value-next first-room rest-room lay-length wrote-content closed-not whole-inside only-first laid-whole
write-good every-next holding-length holding-sized
"""

# A lemma that would have its definition's name gets _lem.
TAKEN = {"station-cases": "station_cases_lem"}


def table():
    new = {n: n.replace("-", "_") for n in DEFINITIONS.split()} | CAPITALS | TAKEN
    for n in LEMMAS.split():
        new[n] = JOINED.get(n, n.replace("-", "_"))
    return {a: b for a, b in new.items() if a != b}


WORD = re.compile(r'"(?:\\.|[^"\\\n])*"|[A-Za-z][A-Za-z0-9_\'-]*')


def main():
    paths = sorted(p for end in ("rt", "antt") for p in glob.glob("crates/**/*." + end, recursive=True) if "/out/" not in p)
    texts = {p: open(p, encoding="utf-8").read() for p in paths}
    new = table()
    there = {m for p, t in texts.items() for m in WORD.findall(t)}
    together = sorted(b for b in new.values() if b in there and b not in OF_THE_CODE)
    if together:
        print("respell: stands there already: " + " ".join(together), file=sys.stderr)
        return 2
    if len(set(new.values())) < len(new):
        print("respell: two names fall together", file=sys.stderr)
        return 2
    count = 0
    for p, t in texts.items():
        def turn(m):
            return new.get(m[0], m[0])
        # In code a dash is a minus sign: a name with a dash stands only in ghost text, which has spaces around its minus signs.
        u = WORD.sub(turn, t)
        if u != t:
            count += 1
            with open(p, "w", encoding="utf-8") as f:
                f.write(u)
    print(f"respell: {count} files")
    return 0


sys.exit(main())
