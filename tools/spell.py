#!/usr/bin/env python3
"""Brings the repository's own antt names to one spelling: words in snake case, types and modules in camel case.

usage: python3 tools/spell.py [--check]      at the top of the repository, after port.py and before anything else

A name that a file of specs/ declares (a definition, a law, a field, a local one) and that has a dash or a capital inside is written with
underscores, everywhere it stands in specs/, proofs/ and the clauses of src/. Functions of src/, exported names, strings, inputs and outputs are
not names of specs/ and stay. With --check nothing is written; names that would fall together with another of the same file are listed either way.
"""

import glob
import re
import sys

TOKEN = re.compile(r"[^\s(){}.;,@\"«»\[\]`]+")
DECLARED = re.compile(r"(?m)^ *(?:(?:unfoldable|abbrev|pub|pattern|record|data) +)*([^\s(){}.;,@\"«»]+)(?: [\{\(][^\n]*?[\}\)])* : ")
USE = re.compile(r"(?m)^\s*(?:ghost )?use ([^\s;{]+)\.?(?:\{([^}]*)\})?")
RUST_GHOST = re.compile(r"(?ms)^ *ghost use [^;]*;|^ *(?:requires|ensures)\*?(?: \w+)? \{.*?\}$")
# The older library's name stands in two names: today's is get_or.
SPECIAL = {
    "getD-tab": "get_or-tab",
    "getD-tab-out": "get_or-tab-out",
    # These would fall together with the function or the definition that they speak of: a law gets _lem, a field another word.
    "answer-long": "answer_long_lem",
    "bit-and": "bit_and_lem",
    "bit-or": "bit_or_lem",
    "can-take": "can_take_lem",
    "in-asks": "in_asks_lem",
    "read-long": "read_long_lem",
    "size-of": "size_of_lem",
    "slot-long": "slot_long_lem",
    "trailer-at": "trailer_at_lem",
    "weight-fits": "weight_fits_lem",
    "weights-long": "weights_long_lem",
    "well-formed": "well_formed_lem",
    "match-of": "match_of_paired",
    "arrivals-fit": "fit_arrivals",
    "in-price": "price_in",
    "out-price": "price_out",
    "left-of": "is_left",
    "partners-of": "are_partners",
    "table-in": "totals_in",
    "table-out": "totals_out",
}
# port.py gave two names one spelling: the law of crosspoint/specs/Copy.antt goes by another.
MERGED = {"number_of": "number_of_lem"}
IN_MERGED = ("crosspoint/specs/Copy.antt", "crosspoint/proofs/lists/put_outputs/Proof.antt", "crosspoint/proofs/lists/wide/Proof.antt")


def spelled(name):
    name = SPECIAL.get(name, name)
    return re.sub(r"(?<=[a-z0-9])[A-Z]", lambda m: "_" + m[0].lower(), name).replace("-", "_")


def code_of(text):
    """The text without its comments."""
    return re.sub(r"(?m)--(?=\s|-).*$", "", text)


def kit_names(text):
    """The names that a file imports from a library of the kit."""
    found = set()
    for path, items in USE.findall(text):
        first = path.split(".")
        if first[0] != "Rattle" or len(first) > 1 and first[1] in ("std", "core", "io"):
            found |= {it.split(" as ")[-1].strip() for it in items.split(",") if it.strip()}
    return found


def by_port():
    """The names that port.py respelled, as its list said: the pages still have the older spelling."""
    return """
    add-at add-spec add-total after-run all-left all-of all-without and-both answer-keeps answerOf arrives-at asked-of at-every at-j at-most at-names
    at-rows back-is below-all below-power below-set best-of bit-high bit-mask bit-not both-long by-answer bytesAt cellAt cells-fit cellsOf clear-spec
    closed-of columns-spec count-at count-none count-spec countOf digits-more end-is fault-past filled-in filled-none find-spec first-rest first-some
    first-spec firstAt firstOf fit-spec fixed-kept formOf found-none fresh-kept from-empty front-long give-spec gives-at goes-back has-either has-h has-on
    head-in held-back here-in holds-at holdsOf in-buffer in-cells in-parts in-row index-in input-of is-within joined-end joined-step keep-spec laneOf
    last-found leftOf len-is length-at lentOf listOf low-byte lowest-by made-kept madeOf main-spec mark-spec mask-lt mask-step match-is matchOf mid-at
    mul-wide nOf names-at no-bits no-digit no-store none-above none-below none-left none-spec not-left not-right number-at number-lt number-of numberOf
    of-spec one-none one-same one-spec ones-in option-is or-left or-right other-row out-of own-turn part-join partsOf pick-first place-inside place-up
    placed-below placesOf put-back put-front put-next put-on put-one put-other put-same put-spec put-three put-two read-head read-past read-spec
    read-taken readOf ready-at ready-with rest-below rest-both room-small row-at rowsOf run-spec same-bits same-full same-head same-length same-queue
    same-sent same-test says-back says-slot set-at shift-in shl-one sizeOf slot-counts slot-is slot-kept slotAt slotOf so-far some-at some-of stateOf
    step-in step-spec stepped-kept store-spec stored-is sum-grow sum-head sum-mono sum-step table-at table-taken take-all-spec taken-none takenOf textOf
    there-and-back too-large too-long turned-more turned-none wait-spec waits-there wide-spec with-none write-again write-spec written-read writtenOf
    by-way
    """.split()


def main(argv):
    specs = sorted(glob.glob("crates/*/specs/**/*.antt", recursive=True))
    proofs = sorted(glob.glob("crates/*/proofs/**/*.antt", recursive=True))
    sources = sorted(glob.glob("crates/*/src/**/*.rt", recursive=True))
    read = {p: open(p, encoding="utf-8").read() for p in specs + proofs + sources}
    own = set()
    for p in specs:
        own |= set(DECLARED.findall(code_of(read[p])))
    table = {n: spelled(n) for n in own if spelled(n) != n and not n[0].isupper()}
    changed = 0
    for p, text in read.items():
        kit = kit_names(text)
        if p.endswith(IN_MERGED):
            text = TOKEN.sub(lambda m: MERGED.get(m[0], m[0]), text)
        rust = p.endswith(".rt")

        def turn(m):
            t = m[0]
            return table[t] if t in table and t not in kit else t

        before = set(TOKEN.findall(code_of(text)))
        for t in sorted(before & set(table) - kit):
            if table[t] in before and not rust:
                print(f"together: {p}: {t} and {table[t]}")
        news = {}
        for t in before & set(table) - kit:
            news.setdefault(table[t], []).append(t)
        for n, olds in news.items():
            if len(olds) > 1:
                print(f"together: {p}: {', '.join(olds)} become {n}")
        new = TOKEN.sub(turn, text) if not rust else RUST_GHOST.sub(lambda m: TOKEN.sub(turn, m[0]), text)
        if new != read[p]:
            changed += 1
            if "--check" not in argv:
                with open(p, "w", encoding="utf-8") as f:
                    f.write(new)
    # The pages name definitions and laws between backticks.
    pages = {**table, **{n: spelled(n) for n in by_port()}}
    for p in ["README.md", *sorted(glob.glob("docs/*.md")), *sources]:
        text = open(p, encoding="utf-8").read()
        new = re.sub(r"`[^`\n]*`", lambda m: TOKEN.sub(lambda k: pages.get(k[0], k[0]), m[0]), text)
        if new != text and "--check" not in argv:
            changed += 1
            with open(p, "w", encoding="utf-8") as f:
                f.write(new)
    print(f"{len(table)} names, {changed} files")


if __name__ == "__main__":
    main(sys.argv[1:])
