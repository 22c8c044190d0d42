#!/usr/bin/env python3
"""Spells this repository's own definitions and lemmas as the library spells its words.

Run once, at the top, after the toolchain's own port script: `python3 tools/respell.py`. Words with hyphens and words with humps
become words with underscores, and hyphenated names of types become names with humps. It reads the .antt files of specs/ and
proofs/ and the clauses of the .rt files; comments keep their hyphens, but for names in backquotes there. Functions of src/,
strings, inputs and outputs are left alone: none of them has a hyphen in a name.
`--list` prints the names and writes nothing.
"""
import glob
import re
import sys

WORD = r"[A-Za-z0-9_]"
HYPHENED = re.compile(rf"(?<![\w·'′-])[A-Za-z_]{WORD}*(?:-{WORD}+)+['′]*(?![\w-])")
HUMPED = re.compile(rf"(?<![\w·'′-])[a-z][a-z0-9]*[A-Z][A-Za-z0-9]*(?![\w-])")
# Words of the library that have hyphens.
LIBRARY = set("""
Decides-eqb add-mod_right add-mul add-one add-suc add-zero between-put_mid cond-false cond-true decimal-digits_value
div-add-mod' div-lt_iff_lt-mul div-mul-add drop-drop drop-put_mid drop-take eq-eqb eqb-false eqb-true get_or-drop
get_or-map-range_with_len get_or-replicate get_or-set_other get_or-set_same get_or-take le-div le-leb le-ltb
le_of_suc-le-suc leb-false leb-true length-between length-drop length-map-range_with_len length-replicate length-set
length-take length-take-le lt-leb lt-ltb lt-one ltb-false ltb-true mod-add-mod mod-eq_of_lt mod-lt mod-mod mod-mul-add
mul-add-lt mul-le mul-zero not-false not-suc-le-zero not-true one-mul parse-decimal pow-suc set-set slice_eq-Decides
suc-add take-add take-append-drop take-put_mid take-put_mid_below take-rest zero-add zero-mul
""".split())
# Names that the toolchain gives to goals and to what is known at them; they stand in the proofs of functions.
GOALS = set("""
After-ok After-struct-known Else-place-width Joined-is_ok absent-refusal all-is as_bytes-digits block_at-block
byte-index cell-cell chosen-is collect-answer collect_node-answer data-d-end decreases-loop-at else-chosen-i
else-chosen-j else-digits-eq43 else-digits-eq48 else-digits-gt0 else-digits-gt0-via-else-digits-gt0
else-digits-gt0-via-then-digits-gt0 else-digits-gt1 else-digits-gt1-via-else-digits-gt1
else-digits-gt1-via-then-digits-gt1 else-is_ok else-marks-i-eq0 else-marks-i-ne0 field-0 from_residual gaps-2
get-answer head_bytes-head head_damage-head held-cells if-a-eq0 if-bytes-j-ne0 if-chosen-i if-chosen-j if-eq
if-file-shape if-from-end if-group-sizes if-i-self if-image-shape if-is_bad if-is_none if-is_ok if-is_some
if-is_some-2 if-j-i if-lanes-gt64 if-lanes-lt1 if-marks-i-eq0 if-marks-i-ne0 if-node-self if-node-shape if-not-cell
if-not-is_admitted if-not-is_head if-not-is_missing if-not-is_sealed if-out-ne64 if-place-self if-place-shape
if-place-width if-rank-shape if-shape-group-ne0 if-sizes-gt12 if-sizes-gt4 if-sizes-lanes if-sizes-lt1 if-sizes-lt1-2
if-slot-self if-slot-shape in-Err in-Ok in-Open in-Some in_default in_default-block in_err-check in_err-open
in_err-put in_err-put-2 in_err-seal in_ok-carry in_ok-check in_ok-high in_ok-lose in_ok-low in_ok-push index-i
invariant-loop-at invariant-loop-bit invariant-loop-byte invariant-loop-d invariant-loop-e invariant-loop-i
invariant-loop-j invariant-loop-node invariant-loop-number invariant-loop-place invariant-loop-rank
invariant-loop-slot invariant-loop-word invariant-loop-x invariant_of-result log-2 loop-at loop-at-preserved loop-bit
loop-bit-preserved loop-byte loop-byte-preserved loop-d loop-d-init loop-d-preserved loop-e loop-e-init loop-i
loop-i-init loop-i-preserved loop-j loop-j-init loop-j-preserved loop-j-test loop-node loop-node-init
loop-node-preserved loop-node-test loop-number loop-number-init loop-number-preserved loop-place loop-place-init
loop-place-preserved loop-place-test loop-slot loop-slot-init loop-slot-preserved loop-slot-test loop-x
loop-x-preserved min-end n-is new-requires node_damage-damage node-index not-Empty number-index out-is overflow_add-n
overflow_add-result overflow_add-seen overflow_sub-member overflow_sub-stripe places-first places-place-end point-at
position-at present_record-bytes product-all product-over product-under put-2 rebuild-answer returns-else-from-end
returns-else-i-self returns-in-Err returns-in-Ok returns-in-Some returns-in_default returns-in_default-block
returns-in_err-check returns-in_err-open returns-in_err-put returns-in_err-put-2 returns-in_err-seal
returns-then-a-eq0 returns-then-at-self returns-then-bytes-image returns-then-bytes-j-ne0 returns-then-digits-eq43
returns-then-digits-eq48 returns-then-from-end returns-then-i-self returns-then-is_bad returns-then-is_none
returns-then-is_some returns-then-is_some-2 returns-then-k-lt1 returns-then-not-cell returns-then-not-is_head
returns-then-not-is_missing returns-then-slot-self scale-2 seen-is shape-place-end shape-shape shape-slots shift-rest
sizes-e-end sizes-shape slot_damage-damage start-at start-byte start-from start-from-requires start-requires
state_of-state state-state stripe-is then-a-eq0 then-chosen-i then-chosen-j then-is_ok then-j-i then-marks-i-eq0
then-marks-i-ne0 then-not-is_missing then-not-is_missing-via-else-not-is_missing
then-not-is_missing-via-then-not-is_missing then-not-is_sealed word-index x-index
""".split())
# Names that would fall together with others in scope beside them.
APART = {"state-of": "state_of_as", "head-of": "head_of_from"}
# A fact whose name began with a small letter.
APART["kept-if-refused"] = "KeptIfRefused"


def turned(word):
    if word in LIBRARY:
        return word
    if word in APART:
        return APART[word]
    if "-" in word:
        parts = word.split("-")
        if word[0].isupper():
            return "".join(p[:1].upper() + p[1:] for p in parts)
        return "_".join(humps(p) if i == 0 else p for i, p in enumerate(parts))
    return humps(word)


def humps(word):
    if not re.fullmatch(r"[a-z][a-z0-9]*[A-Z][A-Za-z0-9]*", word):
        return word
    return re.sub(r"([A-Z])", lambda m: "_" + m.group(1).lower(), word)


def respell(text, names):
    def one(match):
        word = match.group(0)
        new = turned(word)
        if new != word:
            names.setdefault(word, new)
        return new
    return HUMPED.sub(one, HYPHENED.sub(one, text))


def in_quotes(comment, names):
    return re.sub(r"`[^`]*`", lambda m: respell(m.group(0), names), comment)


def antt(text, names, file):
    if len(file.split("/proofs/")[-1].split("/")) > 1:
        kept = {word: mark(i) for i, word in enumerate(sorted(GOALS, key=len, reverse=True))}
        for word, sign in kept.items():
            text = re.sub(rf"(?<![\w'-]){re.escape(word)}(?![\w'-])", sign, text)
        text = antt_lines(text, names)
        for word, sign in kept.items():
            text = text.replace(sign, word)
        return text
    return antt_lines(text, names)


def mark(i):
    return f"\u27e6{i}\u27e7"


def antt_lines(text, names):
    out = []
    for line in text.split("\n"):
        at = re.search(r"(^|\s)--(\s|$)", line)
        cut = at.start() if at else len(line)
        out.append(respell(line[:cut], names) + in_quotes(line[cut:], names))
    return "\n".join(out)


def rt(text, names, file):
    out = []
    for line in text.split("\n"):
        at = re.search(r"(^|\s)//", line)
        cut = at.start() if at else len(line)
        code, comment = line[:cut], line[cut:]
        if re.match(r"\s*(pub )?(ghost|requires|ensures|decreases|law|invariant)\b", code) or "#[tactic" in code:
            code = respell(code, names)
        out.append(code + in_quotes(comment, names))
    return "\n".join(out)


def main():
    names = {}
    listing = "--list" in sys.argv
    files = [(f, antt) for f in glob.glob("crates/*/specs/**/*.antt", recursive=True)]
    files += [(f, antt) for f in glob.glob("crates/*/proofs/**/*.antt", recursive=True)]
    files += [(f, rt) for f in glob.glob("crates/*/src/**/*.rt", recursive=True)]
    before = {}
    for f, turn in files:
        text = open(f).read()
        before[f] = text
        new = turn(text, names, f)
        if new != text and not listing:
            open(f, "w").write(new)
    words = set()
    for text in before.values():
        words.update(re.findall(rf"[A-Za-z_]{WORD}*(?:-{WORD}+)*['′]*", text))
    turned_to = {}
    for old, new in sorted(names.items()):
        print(old, new)
        turned_to.setdefault(new, []).append(old)
    for new, olds in sorted(turned_to.items()):
        if len(olds) > 1 or new in words:
            print("falls together:", new, "<-", ", ".join(olds), "(and a name that stands)" if new in words else "")


main()
