#!/usr/bin/env python3
"""Respells this repository's own definitions and lemmas as Rattle spells them today: words in snake case, types in camel case.

usage: python3 tools/respell.py [FOLDER]     FOLDER is the top of a checkout, this one without it

Run once, after the kit's port.py, which turns only the names that a library has too. It rewrites the files of specs/, proofs/ and src/, the edits of
must-fail/ and the pages, in place, name by name; nothing but the names listed here changes. Functions, types and fields of src/ are not listed."""
import os
import re
import sys

# What the rule gives: a dash or a capital within a word becomes an underscore; within a type's name the dash goes and the next letter is a capital.
PLAIN = """
Breaks-come-together Breaks-stay Class-never-rises Cycle-lasts First-break First-is-least Follows-forward Kept-is-view None-is-none Samples-agree
View-is-allowed View-is-same Views-by-constraints act-back act-written actIn actOf acted-stays after-stands after-word afterAll afterBlanks
afterBlanks-justified afterBlanks-le afterBlanks-replicate afterCue ahead-follows ahead-keeps ahead-same ahead-two aheadBy aheadIn all-has all-mem
all-orders all-rearranged all-within allWinches allows-fits amid-cut amid-tells among-all among-le among-minus among-short among-without and-true
answers-put answersText apart-asked apart-same apart-three apartBy apartIn append-none asked-none asked-other asked-read asked-write at-cell
at-most-three at-ring axis-of axisAlike axisIn axisNumber axisText before-once before-puts begin-given begin-refused below-cond below-no below-yes
between-all between-past blank-all blank-end blank-in blank-last blank-more blank-nothing blank-stop both-firsts bothWinches branch-first
breaks-come-together breaks-stay breaksCascadeless breaksOf breaksRecoverable breaksStrict by-constraints by-no-act by-no-cue by-test by-yes byOther
byte-laid cascadeless-from-strict cascadeless-recoverable cascadeless-recoverable-from cascadeless-strict cell-column class-falls class-never-rises
classLine classNumber classPlace closed-err closed-ok column-more comes-apart comes-cue comes-either committed-cover committed-cue committed-kept
committed-more committed-of committed-once committed-rise committedCues committedList conflict-cycle conflictOrder copiedBy copiedOf counted-all
counted-few counted-less counted-no counted-other counted-past counted-ticket counted-yes cue-bounds cue-filled cue-high cue-is cue-low cue-mapped
cue-of cue-wide cuesOf cut-amid cut-some cut-well cut-whole cycle-of-two cycle-put cycle-shown decimal-well digit-end digit-in digit-more digit-stop
digits-over digits-unbroken digitsFrom distinct-among distinct-kept drawing-all drawing-more drawn-at drawn-none drew-all drew-more drew-none
drew-past drop-read drop-wiped each-pair earlier-break earlier-from earlier-last earlier-of earlier-tells end-done end-not-given end-used ended-either
enter-done entered-free entry-no-cue entry-some entry-with-cue entryIn eq-equal equal-decides equal-lengths equal-push equal-self equal-sym
equal-trans equal-true every-end every-from every-no every-not every-on every-same every-step every-yes everyPair false-from fault-report fault-some
feed-laid few-text fieldsBy fillingAfter first-agree first-all first-among first-append first-by-branches first-end first-guard first-is
first-is-least first-joined first-left first-map first-mapped first-never first-no first-none first-none-after first-nowhere first-order first-place
first-right first-same first-skip first-yes firstAt-before firstBreak firstFrom firstWhere fits-agree fits-allows fits-keeps fits-seen fitsAfter
follows-ahead follows-forward follows-keeps found-answer found-cases found-is found-is-break found-last found-least found-list found-marks found-more
found-passes found-past found-views found-weaker foundBy free-big free-by free-cases free-zero fresh-minus from-open from-set from-skip fromNext
front-blank front-both front-digit front-from front-more front-off front-part front-whole front-zero gathered-all gathered-more going-all going-none
grown-one grows-by has-append has-at has-committed has-none has-replicate has-stands has-without held-counted held-says here-is hidden-first hideBy
hides-same hits-less hits-of imp-from imp-of in-range in-range-kept in-turn inner-end inner-found inner-other inner-past inner-step is-order isAbort
isAhead isApart isCommit isCue isDigit isFound isGiven isHidden isLetter isLower isUpper isWinch isWord item-eight item-filled item-wide joined-push
joined-stands justified-afterBlanks justified-blank justified-fits justified-none justified-push justified-unbroken justified-whole justified-zero
keeps-ahead keeps-fits keeps-may keeps-more keeps-rest kept-all kept-le kept-no kept-short kept-write kept-yes laid-long laid-whole laidIn last-agree
last-agrees last-alike last-all last-before last-counts last-differ last-in last-inside last-is last-of-all last-own last-passes last-placed last-push
last-same last-serial lastWhere lastWrite lastWriter lastWriter-found lastWriter-is lasts-decide lasts-own later-found later-from later-pair
later-place later-tells laterBy layerNumberOf lays-none lays-two leads-from leads-no leads-none leads-yes left-asked left-found left-itself left-past
left-placed left-set left-tried left-x length-justified length-laid length-line letter-end letter-more letter-stop letter-unbroken letterOf
letterValue letters-unbroken lettersFrom line-few line-is line-long line-parts line-put line-well line-whole lineBy lineCut lineEntered lineIn
lineNumberOf lineWritten lines-counted lines-say linesBy linesOr listed-all listed-count listed-cues listed-distinct listed-numbers listed-place
long-more long-yes many-refused mapped-is mark-other mark-same mark-wiped markAlike markIn markText marked-cue marked-front marked-low marked-none
marked-set marks-within may-come-rearranged mayCome mem-among mem-kept mem-some mem-without mid-laid minus-kept more-counted most-le never-end
never-itself never-none never-ready never-round never-some new-read new-room next-again next-bad next-book next-cond next-end next-line next-steps
nextEntered nextIn no-blanks no-break no-cue no-order no-order-after-cycle none-answer none-given none-is-none none-keeps none-leads none-parts
none-placed none-same none-shown none-some none-where noneAhead noneApart not-ended not-not not-or not-refused notes-ahead notes-apart notes-hidden
notes-none notes-same notes-shown notes-two nowhere-push number-laid number-numberIn numberIn-number numberIn-unbroken numbers-long of-axes
of-interleavings of-marks of-value ofBook ofCue ofLine ok-err ok-where onItem onNone once-first once-rest one-next oneUnder or-and or-none or-pairs
orElse-assoc orElse-cond orElse-none order-counted order-put order-says order-shown order-taken orderLine orderRefusal ordered-across ordered-append
ordered-kept ordered-right ordered-turn orders-none orders-some orders-without ordersOf other-apart other-earlier other-kept other-later other-shown
other-weaker outer-end over-p own-kept pair-both pair-front pairFrom pairWith passes-front passes-somewhere passes-weaker passes-within past-barred
past-placed past-tried place-counted place-fits place-names place-says place-within placeAndCue placeOr placed-asked placed-found placed-from
placed-left placed-minus placed-other placed-push placed-rise placed-set placed-tried places-decide placing-more placing-none prec-apart prec-either
prec-hit prec-miss prec-self precedes-has precedes-never precedes-on private-free put-bytes put-more puts-before puts-less puts-more rankIn
ranked-below ranks-more read-adds read-ahead-two read-apart-three read-decides read-front read-other read-own read-report read-touches read-within
readAhead readApart readFrom readHides readIn readSheet reads-back reads-from-weaker reads-tells reads-touches reads-weaker readsFrom
rearranged-distinct rearranged-has rearranged-long receipt-counted receipt-says receiptOr record-done record-none record-not-given record-used
recoverable-cascadeless recoverable-from-cascadeless refusalIn refused-answer refused-list reportOf reportText rest-found rest-next rest-none
rest-tried right-push right-says ring-cycle ring-marked rising-among rising-distinct rising-kept rising-without room-left row-not-x runsBy s-then
said-both same-break same-call same-cues same-last same-passes same-places same-refusal sameView sameWord searchRefusal serial-from serial-of
serial-ordered serialList set-cell sets-writes sheet-few sheet-within short-refused shown-view some-agree some-append some-but some-either some-from
some-front some-here some-keeps some-kept some-no some-none some-on some-placed some-rearranged some-stands some-step some-take some-tells some-where
some-without some-yes somePair somewhere-append somewhere-at somewhere-end somewhere-no somewhere-step somewhere-yes sorted-both sorted-joined
sorted-map sorted-orders source-kept source-own source-same source-serial sourceAt sources-decide sources-own sources-serial spaceAfter spaceCopied
spacedIn stands-before stands-committed stands-either stands-has stands-joined stands-left stands-right stands-some standsIn starts-before starts-map
stays-back strict-cascadeless stripAfter stuck-none stuck-still table-marks table-tells take-drop-length take-listed taken-few tells-either tells-of
tells-refused tells-take text-put third-is three-digits ticket-says ticketAt ticketOr tickets-counted touches-kept trapInCapitals tryAll tryOne
turn-drawn turn-fault turn-known turn-none turn-not turn-other turn-past two-of twoCues under-apart under-either under-p upTo-some upTo-within
upto-more upto-none upto-past used-long usedBy value-high valueFrom valueFrom-ge view-found view-hidden view-shown viewEquivalent viewOrder
viewed-last viewed-source viewedCut viewedSome views-by-constraints views-counted views-put views-say views-shown viewsAnswer viewsLine viewsList
viewsRefusal viewsText waitRefusal waits-still waitsEdge waitsHas walk-over walk-room walked-less walking-more walking-none wanted-none well-from
well-parts wellWritten where-is why-counted why-done why-says whyAnswer whyOf whyOr wipe-more wiped-rest wiped-same wiped-still with-cue with-is
with-least with-other with-step withAhead withApart within-joined within-left within-map within-right without-absent without-kept without-lt word-laid
word-last word-length word-letter word-letters word-of-wordFrom word-parts word-push wordFrom wordFrom-append wordFrom-least wordFrom-most
wordFrom-some wordFrom-within wordFrom-word write-ahead-two write-asked write-last write-other write-own writeAhead writer-counts writer-more
writer-tells writes-either writes-from writes-meet writes-of writes-same writes-sets writes-tells writes-touch written-again written-more written-skip
written-touched x-fresh zero-front zero-mark
""".split()

# A lemma that would get the name of a definition, or of the function whose contract it proves, ends in _lem. Those in ONLY_ANTT had lost their dash before.
LEMMAS = {
    "cycle-lasts": "cycle_lasts_lem",
    "first-break": "first_break_lem",
    "from_next": "from_next_lem",
    "is-cue": "is_cue_lem",
    "kept-is-view": "kept_is_view_lem",
    "letter-of": "letter_of_lem",
    "line-cut": "line_cut_lem",
    "mark-in": "mark_in_lem",
    "next-of": "next_of_lem",
    "none_ahead": "none_ahead_lem",
    "none_apart": "none_apart_lem",
    "of-book": "of_book_lem",
    "of-cue": "of_cue_lem",
    "of-line": "of_line_lem",
    "on-item": "on_item_lem",
    "on_none": "on_none_lem",
    "pair-from": "pair_from_lem",
    "reads-from": "reads_from_lem",
    "samples-agree": "samples_agree_lem",
    "view-is-allowed": "view_is_allowed_lem",
    "view-is-same": "view_is_same_lem",
    "word-from": "word_from_lem",
}
ONLY_ANTT = {"from_next", "none_ahead", "none_apart", "on_none"}

# What port.py turned in the crates, and the pages name too.
PAGES = "classOf cutOf entryAt fieldOf firstAt itemOf leftOf lineOf linesOf nextOf numberIn numberOf orElse placeOf placedOf restOf rowAt upTo".split()


def turned(name):
    if name[0].isupper():
        return "".join(part[0].upper() + part[1:] for part in name.split("-"))
    return re.sub(r"(?<=[a-z0-9])([A-Z])", lambda m: "_" + m[1].lower(), name).replace("-", "_")


NAMES = {name: turned(name) for name in PLAIN} | LEMMAS
# A name is a run of letters, digits and these marks.
WORD = re.compile(r"[\w'\-≡≢≤≥<>∷]+")


# The logic has a lemma of this name; only one crate has one of its own.
OWN_IN = {"and-true": "graphs"}


def respell(text, kind, crate=""):
    def one(m):
        word = m[0]
        if OWN_IN.get(word, crate) != crate:
            return word
        if kind != "antt" and word in ONLY_ANTT:
            return word
        if kind == "md" and word in PAGES:
            return turned(word)
        return NAMES.get(word, word)

    return WORD.sub(one, text)


def files(top):
    for folder in ("crates", "docs"):
        for where, folders, names in os.walk(os.path.join(top, folder)):
            folders[:] = [f for f in folders if f != "out"]
            for name in names:
                if name.endswith((".antt", ".rt", ".edit", ".md")) and name != "PORT.md":
                    yield os.path.join(where, name)
    yield os.path.join(top, "README.md")


def main():
    top = sys.argv[1] if len(sys.argv) > 1 else os.path.join(os.path.dirname(os.path.abspath(__file__)), "..")
    changed = 0
    for path in files(top):
        with open(path, encoding="utf-8") as f:
            before = f.read()
        after = respell(before, path.rsplit(".", 1)[1], os.path.relpath(path, top).split(os.sep)[1] if "crates" in path else "")
        if after != before:
            changed += 1
            with open(path, "w", encoding="utf-8") as f:
                f.write(after)
    print(f"{changed} files changed")


if __name__ == "__main__":
    main()
