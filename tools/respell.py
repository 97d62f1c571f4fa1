#!/usr/bin/env python3
"""Respells this repository's own definitions and lemmas: words in snake case, facts and types in camel case, no dashes.

usage: python3 tools/respell.py      at the top of the repository, once, right after the kit's port.py

It rewrites the .antt and .rt files below crates/, and names between backticks in README.md and docs/. Strings are left as they are.
"""

import os
import re

# where the rule would make two names fall together, or hide a type, a module, a crate or a function of the same name
OTHERWISE = {
    "Read-back": "IsReadBack",
    "Written-back": "IsWrittenBack",
    "Wrong-word": "IsWrongWord",
    "action-lines": "the_action_lines",
    "action-names": "the_action_names",
    "directions-agree": "directions_agree_lem",
    "dualText": "dual_of_text",
    "fact-names": "the_fact_names",
    "for-facts": "for_each_fact",
    "is-plan": "is_a_plan",
    "turned-row": "turned_whole_row",
}

NAMES = """
Accepted-none Action-again Again-in Always-as-searched Always-once Always-placed Always-task Answered-in Answers-exact As-asked As-long As-searched
By-membership Checked-in Checks-sound Counted-as-told Directions-agree Dual-fine Dual-in Dual-read Dual-written Effects-always Explored-so Fact-again
First-missing First-move First-no-node First-repeat First-target Forbidden-always From-bytes From-counts From-names From-piece From-sizes From-words
Good-levels Good-marks Good-words In-bytes In-range Is-repeat Mark-of Marked-more Name-of Names-good Next-of Nodes-as-told Not-written Of-names
Of-text Of-the-task One-length Or-later Planned-on Plans-told Read-back Read-once Read-so-far Reads-as Reads-dual Refused-in Rejected-in Right-in
Same-length Set-up Sheet-read Tables-so Task-read Told-apart Told-of-the-sheet Too-long Well-named Within-capacities Written-back Wrong-at Wrong-in
Wrong-of Wrong-word accepted-closed accepted-hopeless accepted-made accepted-none accepted-not-refused action-again action-as-words action-at
action-cells action-fine action-good action-kind action-line action-line-at action-lines action-marks action-named action-names action-read action-row
action-rows-counted action-rows-made action-rows-named actionCount actionIn actionLines actionName actionNames actionRows actionWords actions-apart
actions-counted actions-fine actions-long actions-read after-all after-apart again-one-spot alike-joined alike-place allowed-gives allowed-none
allowedFirst allowedLater and-not answerText apart-not-refused apart-not-repeated apart-same areLines areNames areWords as-searched at-answer at-any
at-end at-none-above at-plan at-space at-start backward-lawful backward-to begins-shorter behind-at behind-joined behind-lacks behind-length
body-counted by-membership bytes-lack bytes-unique capacity-at capacity-same carries-run cell-allowed cell-is cells-even closed-accepted closed-few
closed-hopeless closed-not complement-below complement-twice consistent-at consistent-of count-few count-one counted-as-told counted-near
counted-reached counts-unique crowded-overfilled decided-none decides-none digit-same digit-xor direction-lawful directions-agree disjoint-at
disjoint-exactly disjoint-of dist-below dist-new dist-old distance-below distance-steps drop-on dual-action dual-actions-fine dual-allowed dual-at
dual-dual-actions dual-fine dual-length dual-of-dual dual-progress dual-read dual-reads-as dual-target dualMark dualText each-name empty-at end-all
end-closed end-count end-crowded end-nearest end-no-rows ended-length even-not-refused exactly-same exhausted-closed fact-again fact-named fact-names
factCount factName factNames facts-apart facts-counted faultText few-below few-exactly few-lines few-more fill-at filled-fits fine-action fine-actions
fine-at fine-from first-allowed first-and-cells first-at first-end first-in first-link first-over first-split flag-turned flagFrom flags-alike
flags-good flags-more flags-turned for-facts forFacts forward-lawful forward-to from-drop from-none from-piece front-held front-node full-64
get_or-map given-some goesOn good-bytes good-end good-lines good-words grew-set grown-none grown-push grown-then half-facts handed-back has-and
has-full has-half has-later has-marked has-none has-or has-past has-set has-without has-xor has-zero headText held-front holds-decides in-line
inside-at is-plan isMark isName isPlan isWord joined-lines joined-onto joined-pieces keeps-all kept-held lacks-append lacks-at last-same last-used
later-allowed later-kind later-marks later-unique later-word leads-snoc leads-solves leads-steps least-steps led-held length-is letter-a letter-d
letter-p letters-bytes lettersDigits level-at level-held line-among line-from line-lacks line-long line-split lineCount lineStart lined-not-refused
lines-alike lines-counted lines-good lines-over linesText links-fit links-grew links-past list-reach lowest-below lowest-in lowest-none lowest-not
lowest-one made-within madeFrom many-actions many-facts mark-adds mark-decoded mark-deletes mark-goes-on mark-long mark-needs markWord marked-below
marks-alike marks-good marks-more marks-turned mirror-is mirror-lawful mirror-next mirror-onward mirror-sets mirror-solves mirror-targeted
mirrored-backward mirrored-forward missing-kept missized-one-spot missized-spot more-count more-few moveText name-of-action name-word nameIn
names-equal names-from-each names-good names-next names-of-actions names-read names-unique namesText near-counted nearer-held nearer-new nearest-below
nearest-exists nearest-one nearest-same neither-below never-near new-far new-link new-node next-is next-layer next-line next-missing next-node
no-direction no-direction-to-check no-fact no-plan no-rest no-sheet node-below nodeAt nodes-as-told nodes-past none-above-at none-accepted none-at
none-lines not-64 not-both not-dualised not-node not-planned now-allowed now-cells now-decoded now-flags now-long now-single now-tells nowWord
of-digit of-kind of-sets of-the-task off-target one-refusal one-repeated one-wrong-place only-given onto-append onward-node onward-snoc orHyphen
order-kept order-length order-order order-turned ordered-plan outcome-told outcomeLength outcomeText over-all over-filled over-more over-rest
padded-at padded-level part-of-part past-other past-separator piece-stands pieces-append place-more place-past placeText places-short plan-in-range
plan-leads plan-least plan-past plan-same plan-solves planLength planned-nameable plans-told pour-at pour-open pour-shut put-others put-within
reach-list reached-counted reached-more read-once refused-one refused-places refused-rows refused-told rest-byte rest-letter rest-space
right-not-refused row-alike row-least row-length row-node row-used rows-count rows-counted rows-joined rows-of-actions rows-of-duals rows-of-task
rows-turned said-unique same-given same-said set-fine set-of-facts set-of-words set-read setOf sets-lawful sets-run shown-fits shown-planned shownPlan
shut-pour single-other size-spot sized-not-refused sizes-unique slices-equal sofar-all sofar-below sofar-more solves-leads some-piece spaceIn
spanned-all stage-counted stage-unmet start-at start-far start-more start-near start-node steps-held steps-leads still-held still-near still-within
table-tied task-fine task-made taskIn text-of-lines then-none then-places then-rows three-counted told-apart told-closed too-few-places too-few-rows
trail-leads trail-suc transfer-is turned-back turned-drop turned-fail turned-full turned-given turned-held turned-is-dual turned-line turned-long
turned-push turned-row turned-start turned-take turned-to turnedBy turnedFlags turnedLines turnedMarks turnedRow turnedRows uneven-one-spot
unlined-one used-fits via-new via-new-row via-old whole-filled wish-allowed wish-cells wish-decoded wish-flags wish-long wish-single wish-tells
wishWord within-at within-exactly without-lt without-xor word-among word-inside word-lacks wordByte wordCount wordStart words-at words-split
words-unique written-long wrong-end wrong-here wrong-length wrong-not-before wrong-one-spot
""".split()

LETTER = r"[\w'-]"


def spelled(name):
    if name in OTHERWISE:
        return OTHERWISE[name]
    if name[0].isupper():
        return "".join(word[0].upper() + word[1:] for word in name.split("-"))
    return re.sub(r"(?<=[a-z0-9])([A-Z])", lambda m: "_" + m[1].lower(), name).replace("-", "_")


NEW = {name: spelled(name) for name in NAMES}
STRING = r'"(?:[^"\\\n]|\\.)*"'
TOKEN = re.compile(rf"{STRING}|(?<!{LETTER}){LETTER}+")
# in the proof of a function, what follows goal, c or w is a goal or a step that Rattle names
IN_ANSWERS = re.compile(rf"{STRING}|(?<!{LETTER})(?:goal|c|w)\.{LETTER}+|(?<!{LETTER}){LETTER}+")
ANSWERS = ("Answers.antt", "Invariants.antt", "Proof.antt")


def respelled(text, token=TOKEN):
    return token.sub(lambda m: NEW.get(m[0], m[0]), text)


def main():
    for folder, dirs, files in os.walk("crates"):
        dirs[:] = sorted(d for d in dirs if d not in ("out", "must-fail"))
        for f in sorted(files):
            if f.endswith((".antt", ".rt")):
                token = IN_ANSWERS if f in ANSWERS else TOKEN
                rewrite(os.path.join(folder, f), lambda text: respelled(text, token))
    pages = ["README.md"] + sorted(os.path.join("docs", f) for f in os.listdir("docs") if f.endswith(".md"))
    for page in pages:
        rewrite(page, lambda text: re.sub(r"`[^`\n]+`", lambda m: respelled(m[0]), text))


def rewrite(path, how):
    with open(path, encoding="utf-8") as f:
        text = f.read()
    new = how(text)
    if new != text:
        with open(path, "w", encoding="utf-8") as f:
            f.write(new)


if __name__ == "__main__":
    main()
