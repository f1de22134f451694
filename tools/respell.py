#!/usr/bin/env python3
"""Brings the repository's own definitions and lemmas to today's spelling: words in snake case, a dash
only between the names of two definitions. It was run once, right after the toolchain's port.py, and is
kept so that an older commit can be brought to the same names: python3 tools/respell.py, at the top.

Proof files and definitions are respelled throughout, code only in what the prover reads of it (clauses,
ghost members and ghost imports): functions of the code, strings and stored outputs keep their names."""

import re
from pathlib import Path

# Names that a plain respelling would make the same as another, or the same as a function or a method
# of the code beside which they are read.
CHOSEN = {
    "chain-kept": "chain_kept-put_mid",
    "kept-page": "kept_of-put_mid",
    "kept-pages": "kept_pages-put_mid",
    "kept-length": "same_length_kept",
    "getD-putMid-out": "get_or-put_mid_out",
    "inFile": "with_file",
    "pagesOf": "pages_from",
    "leadsAlong": "leads_through",
    "kindNumber": "kind_number",
    "recordLen": "record_length",
    "keyLen": "key_length",
}

# A dash stays before or behind these: there it joins the names of two definitions.
JOINED = {
    "length-bytesFrom": "length-bytes_from",
    "length-putMid": "length-put_mid",
}

CAMEL = """
    byBytes byField byFields bySigned bytesFrom caskFields caskOrder chainFrame chainKept chainLook chainRow
    chainedFrame chainedRow copyAfter copyAnswer faultOf firstNo fitsPool gyleFields gyleOrder heldIn inPool
    isGood itemFields itemOrder keptLength keptOf keptPages keyIn noEntry notAbove pageOk pageSegment
    plainFrame plainLook plainRow plainSegment poolKept poolPages poolRow readAfter readSpanAfter segmentOf
    spanAnswer stepFrom unsignedOf usedBy usedPages writeAfter writeSpanAfter
""".split()

DASHED = """
    after-long all-level allowed-means and-done area-framed area-made area-written ascends-after
    ascends-shifted bad-not-good behind-sign below-falls block-key block-keyed both-level by-same byte-from
    byte-lt bytes-level bytes-lex bytes-right bytes-steady chain-proper chain-step chained-proper chains-after
    copy-asked digits-no ends-leads ends-once ends-one equal-from false-behind false-from field-lex
    field-pins field-steady fields-lawful fields-pin fields-steady first-not-below first-of-key first-stroke
    fit-pages fits-same flipped-first flipped-more found-by from-mapped from-there full-bytes full-segment
    good-at goods-if goods-kept greater-from has-at has-place has-without held-already in-turn kept-after
    kept-four key-of-part last-not-above lead-same leads-all leads-at leads-bad leads-ends leads-more
    leads-other leads-pages leads-same less-from level-directed level-either-way level-is lex-decided
    lex-more lex-pins look-finds look-means mapped-push named-done named-refused never-refused
    never-refused-behind next-same no-letter no-pages no-stroke none-zero not-above-falls not-again
    nothing-sorted once-apart once-few once-in once-or once-without one-bad only-bad only-done only-refused
    open-still own-flip own-level page-bad page-byte page-full page-good page-in page-of page-placed
    page-refused page-within pages-are pages-at pages-by pages-few pages-fit pages-indexed pages-last
    pages-once pages-proper pages-same part-before part-behind part-here part-key part-other plain-after
    plain-allowed plain-count plain-framed plain-proper plain-told plain-write pool-most pool-same pool-some
    pool-told pool-unchanged pool-used probe-done probe-front probe-passed probe-refused proper-from put-more
    put-wrote putMid-same rank-flipped rank-more record-inside record-keyed refused-not-done refused-stays
    row-after row-none same-fits same-pages same-pages-kept same-pins sign-steady signed-lex some-stroke
    span-asked span-at span-done step-off step-on still-fits stored-key stroke-at tail-byte take-further
    three-yes to-there true-before true-from two-halves twos-is unsigned-lt used-after used-before used-is
    used-once used-same walk-bad walk-last walk-suc-last walk-suc-more weighed-later weighed-lt weighed-pins
    whole-means without-none written-here
""".split()


def snake(name: str) -> str:
    return re.sub(r"(?<=[a-z])([A-Z])", lambda m: "_" + m[1].lower(), name).replace("-", "_")


NAMES = {**{n: snake(n) for n in CAMEL + DASHED}, **JOINED, **CHOSEN}
NAME = re.compile(
    r"(?<![\w'-])(?:" + "|".join(sorted(map(re.escape, NAMES), key=len, reverse=True)) + r")(?![\w'-])"
)
READ_BY_THE_PROVER = re.compile(r"^\s*(?:pub )?(?:ghost|requires|ensures)\b")


def respelled(text: str) -> str:
    return NAME.sub(lambda m: NAMES[m[0]], text)


def main() -> None:
    for path in sorted(Path("crates").rglob("*.antt")):
        if "out" not in path.parts:
            path.write_text(respelled(path.read_text()))
    for path in sorted(Path("crates").rglob("src/**/*.rt")):
        lines = path.read_text().splitlines(keepends=True)
        path.write_text("".join(respelled(l) if READ_BY_THE_PROVER.match(l) else l for l in lines))


if __name__ == "__main__":
    main()
