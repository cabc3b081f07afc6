#!/usr/bin/env python3
"""Respells the repository's own definitions and lemmas: words of a name are joined by an underscore, in lower case.

usage: tools/respell.py        at the top of the repository, once, on files with the older spelling

Names of functions, exported names, strings, inputs and outputs stay. A lemma about the length or the joining of lists
keeps the dash between the two functions that it speaks of.
"""

import pathlib
import re
import sys

NAMES = """
accepted-wanting added-entry added-home added-way all-written allowed-inside allowed-marked allowed-one
apart-fields apart-front apart-numbers arrived-at asEntry asHome below-10000 binary-other blank-at blank-few
blank-inside blank-net blank-refused blank-room cell-is cell-sound cell-there channel-below channel-of
cond-inside cond-self cond-test count-ways counts-allowed countsFor decimal-spelled drawn-conditions
drawn-push drop-front drop-later end-room entries-other entry-added entry-inside entry-pair entryBy far-below
fault-one faultLine few-channels few-more few-pairs few-places few-queued few-ways field-more field-then
fields-last fields-then fields-written fieldsLeft file-back file-front file-more fileOf fileText first-bad-one
first-later first-line first-line-one first-or-good first-outside-one first-set firstField firstShort
fit-or-first fit-push fit-takes five-digits followed-home followed-on head-is held-other holds-one
holds-or-rejects home-added home-pair homeBy is-inside joined-more lacks-decimal lacks-digits lacks-numbers
last-field last-unfinished lastField later-line-one later-one later-or-good leads-below less-front
letter-above letter-e letter-h letter-n letter-w letterOf line-back line-ended line-front line-more
line-of-numbers line-one line-then line-written lineText lines-back lines-finished lines-read lines-unfinished
look-blank look-here look-other made-both meaningOf misfit-one more-digits most-channels most-places
most-records most-ways moved-old net-ext netOf new-byte next-line no-bad-line no-bad-row no-entry no-fault
no-home no-later no-numbers-fault no-ways not-inside numbers-fault-one numbersOf numbersText old-byte old-word
onField onLine one-digit one-fault one-reading one-records-fault one-refused only-first or-all or-none
place-below place-within port-below port-leads position-below queued-entry queued-mark queued-other readLine
reads-one reads-or-fault record-fault record-fault-by record-fault-one record-fields record-one
record-or-fault record-refused record-room record-surely recordLetter recordLine recordLines recordText
records-room refused-ninth refused-pair refused-way rejects-one room-left rooms-suffice rows-say runTo
same-pair same-record say-more say-one second-bad second-field seen-inside set-marked size-alone size-fault
size-fault-by size-fault-one size-fields size-misfit-one size-one size-or-fault size-or-misfit size-read
size-refused size-surely sizeLetter sizeNumbers sizeText small-back small-end small-here small-record
small-records some-channel some-fields some-front some-line some-place some-push sound-is sound-other
spelled-numbers spells-spelled spidergon-conditions step-below studyParts table-conditions take-front
takes-entry takes-home takes-or-misfit takes-way tells-one text-refused text-take-more third-bad third-field
total-all total-more way-added way-below way-counts way-pair way-sound way-there wayBy ways-are ways-below
ways-fine ways-from ways-here ways-inside ways-more whole-ended whole-front whole-lines whole-more withWay
within-size within-way wrote-all wrote-byte wrote-digit wrote-digits wrote-front wrote-line wrote-number
zero-alone
""".split()


# The lemma on a line's last field would have the name of the definition of what a last field prints.
APART = {"last-field": "last_field_lem"}


def respelled(name):
    if name in APART:
        return APART[name]
    return re.sub(r"(?<=[a-z0-9])([A-Z])", lambda m: "_" + m[1].lower(), name).replace("-", "_")


def main():
    table = {name: respelled(name) for name in NAMES}
    if len(set(table.values())) != len(table):
        sys.exit("respell: two names fall together")
    known = re.compile(r"(?<![\w'\-])(" + "|".join(sorted(map(re.escape, table), key=len, reverse=True)) + r")(?![\w'\-])")
    changed = 0
    for path in sorted(pathlib.Path("crates").rglob("*")):
        if path.suffix not in (".antt", ".rt") or "out" in path.parts:
            continue
        old = path.read_text(encoding="utf-8")
        here = set(re.findall(r"[\w']+(?:-[\w']+)*", old))
        for name in sorted(set(known.findall(old))):
            if table[name] in here and path.suffix == ".antt":
                print(f"look: {path}: {name} and {table[name]} become one name")
        new = known.sub(lambda m: table[m[1]], old)
        if new != old:
            path.write_text(new, encoding="utf-8")
            changed += 1
    print(f"respell: {changed} files")


main()
