#!/usr/bin/env python3
"""Respells the names of specs/ and proofs/ as today's Rattle does: words in snake case, types and facts in camel case.

Run once, at the top of the repository, after the kit's port.py. Names that Rattle makes (goals, steps) and names of the
library keep their spelling, and so does all code: only clauses, imports, specs/, proofs/ and the edits' text change.
"""
import glob
import re

NAMES = """
above-none accepted-as adding-member after-as after-edge after-final after-put after-rule after-settle all-below
all-below-push all-below-step all-clear all-steps answer-covers answer-gives answer-least answer-more answer-of
answers-more applied-stack around-other around-step around-within asked-more asked-spec at-append at-past at-within
begins-at begins-by below-same bit-zero bound-same by-fit by-question by-refusal by-room by-rule by-settle calm-none
calm-then came-more can-replay closed-more combine-assoc combine-comm combine-idem combined-append combined-extend
combined-more combined-one combined-push combined-times combined-words comes-by comes-from comes-to-rest controls-bound
count-above count-adding count-bound count-empty count-le count-member count-within count-without covers-both
covers-equal covers-left covers-left-sum covers-none covers-right covers-sum covers-sum-right covers-trans covers-word
decides-empty edge-added edge-bounds edge-changes edge-each edge-edges edge-editing edge-fits edge-fitting edge-grows
edge-left edge-outside edge-raised edge-ranks edge-read edge-refusal edge-room edge-set edge-still edge-tests
edge-within editing-or-released ends-append ends-before ends-of-within ends-then ends-within entered-run entry-steps
exits-less extend-assoc extend-both extend-left extend-right extended-times extended-words few-raises few-steps final-in
final-more final-refusal final-tests final-within fit-allowed fit-from fit-push fits-at fits-stack fitting-past
fitting-within flag-laws flag-rows flag-values flags-shown found-by given-after given-from-none given-none given-some
given-with gives-append grown-none grown-then holds-looked holds-step in-stage in-states is-editing is-final is-formed
is-given is-released joined-append joined-below kept-edge kept-empty kept-open kept-take length-kept length-round
length-word limit-bound long-row looked-none looked-some ltb-more mapped-given mark-at marked-set marked-unset
may-settle-so member-push member-rest minute-laws minute-rows minute-values minutes-shown more-ones most-raises new-rule
no-addition none-counted none-if none-marked none-some none-waits not-woken nothing-waits of-settle on-target one-if
one-or-none one-step onward-same open-allowed open-refusal open-tests or-again or-not own-spec path-weights place-lt
place-within pop-covers put-answer put-fits put-none put-set question-control question-edges question-refusal
question-scratch question-staged question-tests question-word queue-front queue-push raised-none raised-then
raises-within ranged-has rank-at ranks-grow ranks-le ranks-set read-from read-within readers-at readers-low readers-past
refusal-of refused-or refused-or-ran refused-run release-idle release-refusal release-tests released-question
released-refusal released-tests replay-done replay-refusal replay-said replay-tests replayed-more replayed-stop
rest-length room-for-new room-left round-front round-push row-closed row-covers row-each row-raised row-ranks row-still
rule-added rule-count rule-editing rule-fitting rule-left rule-refusal rule-room rule-step rule-tests rule-weights
rule-word rules-in run-weight run-weight-append run-weight-same said-then same-covered same-covering same-rules
same-words saturated-edges saturated-raises session-of set-fits settle-edges settle-of settle-refusal settle-room
settle-tests settle-weights settled-by sizes-allowed sizes-of smallest-by sound-above sound-combine sound-gives
sound-rule sound-rules sound-target states-bound step-closed step-first step-own step-raised step-sound step-within
steps-one steps-within stop-reason sum-covers sum-suc sums-cover take-set take-waited target-weight then-then
through-none through-sum total-budget total-but-one total-le total-more total-raises total-same total-steps total-zero
used-set value-at value-off was-accepted was-refused weight-gives weights-in went-ruleless widened-within with-edge
with-finals with-rule with-waiting without-within woken-all woken-low woken-none woken-put woken-skip word-covers
word-or word-push worth-same yes-no
f-rests fits-a fits-b has-it in-sizes lacks-it low-a low-b no-fit not-less same-control sym-of
Comes-from Covers-runs Each-edge Holds-all May-settle-so On-refusal One-step Released-to Rows-hold Same-place
Withdrawn-to
""".split()

# The library has a word of the plain respelling.
OTHERS = {"bit-and": "bit-bit_and", "bit-or": "bit-bit_or"}

# Rattle makes a step of this name too, which keeps its spelling behind a dot.
STEPS = {"fits-stack", "is-released"}


def respelled(name):
    if name[0].isupper():
        return "".join(w[0].upper() + w[1:] for w in name.split("-"))
    return OTHERS.get(name, name.replace("-", "_"))


TABLE = {n: respelled(n) for n in [*NAMES, *OTHERS]}
WORD = re.compile(r"(\.?)(?<![\w'\-·≢→])([A-Za-z][\w'≢→]*(?:-[\w'≢→]+)+)(?![\w'-])")


def turn(text):
    def one(m):
        dot, name = m.groups()
        if name not in TABLE or (dot and name in STEPS):
            return m.group(0)
        return dot + TABLE[name]

    return WORD.sub(one, text)


def main():
    kinds = ["specs/**/*.antt", "proofs/**/*.antt", "src/**/*.rt", "must-fail/*.edit"]
    for kind in kinds:
        for path in sorted(glob.glob("crates/*/" + kind, recursive=True)):
            with open(path, encoding="utf-8") as f:
                old = f.read()
            new = turn(old)
            if path.endswith((".rt", ".edit")):
                # comments and strings of code are prose
                lines = []
                for a, b in zip(old.split("\n"), new.split("\n")):
                    lines.append(a if a.lstrip().startswith("//") else b)
                new = "\n".join(lines)
            if new != old:
                with open(path, "w", encoding="utf-8") as f:
                    f.write(new)
    for path in ["README.md", *sorted(glob.glob("docs/*.md"))]:
        with open(path, encoding="utf-8") as f:
            old = f.read()
        new = re.sub(r"`[^`\n]+`", lambda m: turn(m.group(0)), old)
        if new != old:
            with open(path, "w", encoding="utf-8") as f:
                f.write(new)


if __name__ == "__main__":
    main()
