#!/usr/bin/env python3
"""Brings the repository's own definitions and lemmas to the spelling of the newer Rattle: facts and types in camel case,
all else in snake case. Run once at the top of the repository, after the toolchain's own port.py and on what that left.

It goes by whole names, in crates/*/specs, crates/*/proofs and the contracts of crates/*/src, and leaves comments, strings,
Rust's own names and the names that the prover makes as they are."""
import os
import re

# every name of a definition, a field of a record or a lemma that had a dash in it, as it was written
NAMES = """
Archive-figures At-fault At-least Audit-clears Audit-right Audit-tells Block-figures Box-above Box-dominates
Box-stands Brought-back Call-keeps Clash-at Clash-first Closing-up Compares-in Each-in Edges-enclose Fed-back
First-at-fault First-from Four-each History-keeps Idle-call-keeps In-box Item_at Line-lawful List-leaves
List-right Made-of Making-begins None-in None-of Not-after Not-full Off-grid-at Offer-leaves Offer-right
On-grid Opens-box Out-at Ratio-figures Reads-back Recorded-laws Replay-right Round-trip Row-need-is-least
Same-box Same-boxes Same-bytes Same-trials Some-in Stays-apart Step-figures Step-is-two-level
Step-is-two-level-after Step-right Tags-fit Tags-in-front Trial-at Trial-stands Trial-within Truthful-of
Two-level Unplayed-right Writable-if-admitted Writes-back a-step admits-at admitted-at after-all after-within
all-always all-below all-below-each all-below-fails all-below-from all-denies all-enter all-entered all-fed
answer-adds answer-by answer-denies answer-of any-from any-later any-take apart-later archive-figures as-asked
as-much at-defaults at-least-decided at-least-from at-least-in at-least-or at-least-refl at-least-trans
at-space audit-answer audit-clears audit-none audit-right audit-tells axis-line back-lent bad-grid-number
below-from blank-point block-count block-figures block-not-six block-number block-report block-sealed
block-trials both-none both-same both-writable box-at box-before box-covers box-dominates box-dominates-back
box-dominates-decided box-dominates-from box-dominates-never box-dominates-onward box-dominates-same box-from
box-holds box-is box-mono box-past boxes-of brought-by byte-back call-keeps call-of check-again check-bytes
check-fault check-more check-none check-not-full check-suc checked-block checked-records clash-end clash-first
clash-found clash-from clash-later clash-more clash-not climb-high climb-low closing-up-all closing-up-goes
closing-up-none closing-up-stays compares-more compares-never content-of count-offered decided-below
decided-right decides-any decides-at-least decides-beaten decides-dominates decides-pair decides-shuts
decimal-after decimal-ge decision-more decision-push denial-number denied-report denied-right digit-fails
digit-more digits-below direction-number displace-stays displaced-right dominates-decided dominates-onward
dominates-trans each-push edge-after edge-first edge-high edge-mono enough-blocks entered-right entries-of
entry-of-fields extent-of fails-here fails-later faithful-first faithful-grid faithful-joined faithful-pair
fault-by fault-later fault-report feed-adds feed-answer feed-check feed-denies feed-not-six feed-report
fields-after figure-at figure-back figure-written figures-read filled-after filled-front filled-long
finds-no-row first-again first-and-rest first-apart first-at-least first-beaten-from first-bytes first-cut
first-fault first-from first-item first-largest first-line first-or-rest first-pair first-place first-report
first-row first-sound first-told first-whole found-are found-passes four-again four-back four-each four-enter
from-log from-not front-all front-lent front-wide front-written full-right gone-by gone-offered good-brought
good-offer granted-fits grid-fault grid-meaning grid-recording half-more has-verdict head-on header-bytes
header-check header-from header-parts header-put header-sound high-more high-none high-push history-keeps
how-many-went idle-adds idle-call-keeps idle-stays in-again in-cons in-fault in-first in-last in-more in-none
in-nothing in-push in-range in-suc inner-long item-again item-bytes item-for item-size items-fit items-held
items-long items-read joined-blank joined-width judge-by judge-decided judge-enters judged-adds judged-denies
judged-right kept-boxes kept-members kind-of largest-in largest-is largest-more largest-none
lawful-first-alone lawful-grid lawful-joined lawful-pair lawful-rules lawful-triangle leaves-judged
leaves-listed left-to-read less-in less-than-a-step limit-fails line-lawful lines-counted list-answer
list-granted list-long list-short list-strange-same listed-over low-more low-none low-push making-begins
making-denial meaning-of members-after members-by members-called members-more members-of-after members-of-all
members-offered members-then never-full next-fault next-is no-clash no-clash-from no-pair no-tags no-worse
no-worse-at none-admitted none-beaten none-empty none-rowless none-shuts none-went not-apart not-below-from
not-below-push not-dominated noting-more noting-more-no number-after number-back number-below number-written
off-grid off-in offer-adds offer-answer offer-check offer-denies offer-of offer-passed on-grid on-grid-decided
one-fed one-finds-no-row one-first one-objective one-over only-off or-pass or-replace others-stay outcome-by
outside-box outside-extent over-here over-same own-rows own-rows-lent pair-at pair-blank pair-decided
pair-from pair-meaning pair-off pair-on pair-onward pair-recording pairwise-kept pairwise-push pairwise-weaker
pairwise-without part-savable passed-right past-the-last per-block place-from place-new placed-from
product-but product-more product-none put-at ran-audit-strange ran-list ran-list-strange ran-offer
ran-offer-strange ratio-figures ratio-lawful ratio-line ratio-meaning ratio-recording ratio-sound read-ahead
read-point reads-back record-front record-not-six record-put record-report recording-of records-back
records-check records-in records-of replaced-right replacing-by-row replacing-row replay-more replay-none
rest-is rest-kept row-decided-right row-free row-need row-need-is-least running-push same-both same-box
same-boxes same-call same-list same-members same-offer same-or-dominates save-answer saved-block saved-blocks
seal-answer seal-sums sealed-anew second-at-least second-row seen-both seen-record shifting-all shifting-more
shifting-none shifting-set short-list shuts-from shuts-least signed-bits signed-exact signed-zero-held
six-boxes some-beaten some-below-from some-kept some-not-none some-room sound-zeros spaces-skipped split-item
state-of stays-apart stays-in-box step-figures step-is-two-level step-is-two-level-after step-lawful
step-meaning step-recording step-sound steps-mono strange-denied strange-is strange-rows strange-untouched
sums-seal tag-again tags-after tags-all tags-in-row-order tags-more tags-of tail-check tail-ends tally-adds
tally-denies tells-denied tells-displaced tells-entered tells-number tests-displace tests-join tests-replace
then-denied then-judged three-enter three-extents three-fields three-passed-over to-judge told-denies
told-feed told-place told-right too-many-number top-more trial-item trial-of trial-put trials-long trials-of
two-again two-extents two-fill unsigned-bits unsigned-exact unsigned-zero-held unused-lawful verdict-adds
verdict-denies verdict-number verdict-of with-sums within-three without-first without-return word-closed
writable-rules write-answer write-both write-first writes-back writes-first writes-joined written-items
yet-enters zero-alone zero-byte zero-figure zero-from zero-past zero-tested zeros-read zeros-sound
""".split()

WORD = re.compile(r"""[^\s(){}\[\];,.:@"`|\u00ab\u00bb]+""")


def respelled(name):
    """Camel case for what begins with a capital, else snake case."""
    if name[0].isupper():
        return "".join(w[0].upper() + w[1:] for w in re.split("[-_]", name))
    return name.replace("-", "_")


NEW = {name: respelled(name) for name in NAMES}


def turned(text, comment):
    """The text with each name respelled, but for comments, which begin with these two characters."""
    out = []
    for line in text.split("\n"):
        at = re.search(r"(^|\s)" + re.escape(comment) + r"(\s|$)", line)
        code, rest = (line, "") if at is None else (line[: at.start()], line[at.start() :])
        out.append(WORD.sub(lambda m: NEW.get(m.group(0), m.group(0)), code) + rest)
    return "\n".join(out)


def main():
    changed = 0
    for folder, below, files in os.walk("crates"):
        below[:] = sorted(d for d in below if d != "out")
        for name in sorted(files):
            comment = {".antt": "--", ".rt": "//"}.get(os.path.splitext(name)[1])
            if comment is None:
                continue
            path = os.path.join(folder, name)
            with open(path, encoding="utf-8") as f:
                was = f.read()
            now = turned(was, comment)
            if now != was:
                changed += 1
                with open(path, "w", encoding="utf-8") as f:
                    f.write(now)
    print(f"{len(NAMES)} names, {changed} files changed")


if __name__ == "__main__":
    main()
