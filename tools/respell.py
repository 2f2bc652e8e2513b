#!/usr/bin/env python3
"""Respells this repository's own definitions and lemmas as the kit spells its own: words in snake case, types and
modules in upper camel case, and a dash only between two names of functions.

It was run once, at the top of the repository, after the kit's own script had respelled what it knows. Words: none. It
goes by whole names: in specs/ and proofs/ everywhere, but behind a dot only the names of fields; in src/ outside strings;
in must-fail edits; in documents between back quotes, where it also turns the names that the kit's script had turned.
Names of functions, fields and variables of src/ are in snake case as they are, so that none of them is met.
"""
import re
import sys
from pathlib import Path

# old=new, by the old name
NAMES = """
absent-from=absent_from accepted-gathered=accepted_gathered accepted-join=accepted_join after-bad=after_bad
after-decides=after_decides after-token=after_token afterAsking=after_asking afterEntering=after_entering
afterHeader=after_header afterMarks=after_marks afterParsing=after_parsing afterTargets=after_targets
ahead-falls=ahead_falls ahead-fault=ahead_fault ahead-fine=ahead_fine alive-back=alive_back alive-begins=alive_begins
all-and=all_and all-below=all_below all-front=all_front all-members=all_members all-merge=all_merge all-or=all_or
all-stops=all_stops all-weave=all_weave all-worked=all_worked allNode=all_node allPrint=all_print among-by=among_by
among-from=among_from among-itself=among_itself among-push=among_push and-all=and_all and-grouped=and_grouped
and-joins=and_joins and-turned=and_turned and-twice=and_twice answer-by=answer_by answeredOut=answered_out
any-letter=any_letter anyNode=any_node asked-all=asked_all asked-no=asked_no asked-which=asked_which
asked-yes=asked_yes at-cond=at_cond at-end=at_end at-token=at_token atom-derived=atom_derived atomLine=atom_line
atoms-keep=atoms_keep atomsFrom=atoms_from atomsFrom-longer=atoms_from_longer bad-never=bad_never badMark=bad_mark
badMarkOf=bad_mark_of badTarget=bad_target badTargetIn=bad_target_in badTargetOf=bad_target_of bare-piece=bare_piece
bareAt=bare_at base-fault=base_fault base-fine=base_fine base-refused=base_refused base-sound=base_sound
bases-fault=bases_fault bases-fine=bases_fine bases-sound=bases_sound basesBy=bases_by basing-by=basing_by
basing-enters=basing_enters basing-leaf=basing_leaf basing-none=basing_none before-marks=before_marks
before-token=before_token begins-no-star=begins_no_star beginsSome=begins_some begun-operand=begun_operand
begun-plain=begun_plain begun-some=begun_some begunAs=begun_as behind-weaker=behind_weaker beyond-passed=beyond_passed
beyond-refused=beyond_refused bindBy=bind_by bindBy-alike=bind_by_alike bindBy-only=bind_by_only blank-more=blank_more
both-none=both_none bracketTo=bracket_to builtIn=built_in by-header=by_header by-marks=by_marks by-room=by_room
by-sound=by_sound came-to-header=came_to_header came-to-marks=came_to_marks came-to-targets=came_to_targets
cases-joints=cases_joints chained-last=chained_last chained-two=chained_two checkedOf=checked_of checks-on=checks_on
classesIn=classes_in closed-by=closed_by_lem closed-fault=closed_fault closed-fine=closed_fine
closed-sound=closed_sound closedBy=closed_by closingAt=closing_at coded-numbers=coded_numbers come-as=come_as
comes-after=comes_after comes-and=comes_and comes-bind=comes_bind comes-chained=comes_chained
comes-derived=comes_derived comes-entered=comes_entered comes-from=comes_from comes-here=comes_here
comes-kept=comes_kept comes-merged=comes_merged comes-negated=comes_negated comes-not=comes_not comes-or=comes_or
comes-pair=comes_pair comes-same=comes_same comes-sequence=comes_sequence comes-star=comes_star
comes-starred=comes_starred comes-tree=comes_tree comes-two=comes_two cond-some=cond_some countedBy=counted_by
decides-never=decides_never decides-opposite=decides_opposite deep-never=deep_never derived-iff=derived_iff
derived-leaf=derived_leaf derived-once=derived_once derived-twice=derived_twice derivedBy=derived_by
differ-itself=differ_itself drop-back=drop_back due-done=due_done either-iff=either_iff empty-list=empty_list
empty-sequence=empty_sequence emptyNode=empty_node enclosed-bad=enclosed_bad enclosed-by=enclosed_by
enclosed-done=enclosed_done enclosed-fault=enclosed_fault enclosed-none=enclosed_none enclosed-open=enclosed_open
enclosed-refused=enclosed_refused enclosed-sound=enclosed_sound enclosed-stopped=enclosed_stopped end-place=end_place
ended-checked=ended_checked endedBy=ended_by entered-as=entered_as entered-fine=entered_fine enteredTree=entered_tree
entries-are=entries_are entries-few=entries_few entriesFrom=entries_from entriesIn=entries_in err-never=err_never
err-same=err_same escaped-nil=escaped_nil escaped-push=escaped_push failed-begins=failed_begins
failed-never=failed_never failing-here=failing_here failing-more=failing_more failing-none=failing_none
fair-before=fair_before fault-by=fault_by fault-never=fault_never few-atoms=few_atoms few-by=few_by
few-classes=few_classes few-rows=few_rows few-written=few_written fill-ends=fill_ends finishedAs=finished_as
first-apart=first_apart first-fails=first_fails first-falls=first_falls first-grown=first_grown
first-refused=first_refused first-sound=first_sound first-spot=first_spot first-star=first_star first-used=first_used
first-wrong=first_wrong first-wrong-by=first_wrong_by firstBelow=first_below firstEqual=first_equal
firstFailing=first_failing firstFrom=first_from firstHeld=first_held firstLine=first_line firstNo=first_no
firstNodes=first_nodes firstPart=first_part firstUnsound=first_unsound fits-asked=fits_asked flag-below=flag_below
flag-recorded=flag_recorded flag-right=flag_right flagAt=flag_at form-at=form_at_lem form-at-raw=form_at_raw
form-is=form_is form-never=form_never formAt=form_at formAt-append=form_at-append formBy=form_by
formBy-recorded=form_by-recorded found-bad=found_bad found-end=found_end found-form=found_form found-means=found_means
found-more=found_more found-stays=found_stays found-still=found_still found-taken=found_taken found-there=found_there
four-first=four_first full-decides-mixed=full_decides_mixed full-join=full_join full-untold=full_untold
gathered-full=gathered_full gathered-full-more=gathered_full_more gathered-more=gathered_more getD-nth=get_or-nth
given-asked=given_asked given-parsed=given_parsed goBy=go_by goingOn=going_on group-by=group_by
group-grown=group_grown group-refused=group_refused groupDepth=group_depth grow-enters=grow_enters grow-kept=grow_kept
growBy=grow_by growInto=grow_into growing-by=growing_by growing-enters=growing_enters growing-exit=growing_exit
growing-more=growing_more growing-none=growing_none grown-fault=grown_fault grown-fine=grown_fine
grown-itself=grown_itself grown-length=grown_length grown-meaning=grown_meaning grown-means=grown_means
grown-none=grown_none grown-on=grown_on grown-sound=grown_sound grown-stops=grown_stops grownBy=grown_by
head-below=head_below head-on=head_on headed-by=headed_by header-laid=header_laid header-no=header_no
header-yes=header_yes horizon-far=horizon_far horizonFrom=horizon_from horizonIn=horizon_in if-empty=if_empty
iff-from-decides=iff_from_decides in-hex=in_hex in-text=in_text in-unless-not=in_unless_not inLine=in_line
inside-none=inside_none inside-ok=inside_ok interned-found=interned_found interned-full=interned_full
internedBy=interned_by internedBy-is=interned_by-is into-first=into_first is-star=is_star_lem isOption=is_option
isStar=is_star join-full=join_full joined-below=joined_below joined-nothing=joined_nothing joined-parts=joined_parts
joins-again=joins_again joins-both=joins_both joins-last=joins_last joins-second=joins_second joinsWith=joins_with
joints-parts=joints_parts just-fits=just_fits kept-below=kept_below kind-back=kind_back kindIn=kind_in
kindNumber=kind_number kindWord=kind_word known-passes=known_passes laidOut=laid_out laidUnless=laid_unless
lang-map=lang_map last-is=last_is last-stops=last_stops last-token=last_token lastLine=last_line later-is=later_is
layoutIn=layout_in leaf-enters=leaf_enters leaf-kept=leaf_kept leaf-taken=leaf_taken leafIn=leaf_in leafOf=leaf_of
left-asked=left_asked left-fault=left_fault left-listed=left_listed left-parsed=left_parsed left-tree=left_tree
length-marksIn=length-marks_in length-passedBelow=length-passed_below length-true=length_true
length-workedIn=length-worked_in lengthIn=length_in levelOf=level_of lexFrom=lex_from lexFrom-enough=lex_from_enough
lexed-asking=lexed_asking lexed-cut=lexed_cut lexedAt=lexed_at lexedFrom=lexed_from lexedFrom-step=lexed_from_step
lies-taken=lies_taken listed-are=listed_are look-all=look_all look-here=look_here look-on=look_on makeOf=make_of
mark-bad=mark_bad mark-good=mark_good mark-same=mark_same mark-test=mark_test mark-there=mark_there markIn=mark_in
marks-say-what-is-reached=marks_say_what_is_reached marks-stand=marks_stand marks-yes=marks_yes marksIn=marks_in
marksIn-numbers=marks_in_numbers marksIn-set=marks_in-set meaning-form=meaning_form meaning-next=meaning_next
meanings-front=meanings_front means-all=means_all means-any=means_any means-empty=means_empty means-none=means_none
members-deep=members_deep members-there=members_there membersBy=members_by membersBy-filled=members_by-filled
merge-all=merge_all merge-last=merge_last merge-more=merge_more met-full=met_full met-known=met_known
met-longer=met_longer met-new=met_new met-one=met_one met-room=met_room metIn=met_in metIn-keeps=met_in_keeps
metIn-longer=met_in_longer mixed-by=mixed_by more-and=more_and more-fault=more_fault more-fine=more_fine
more-or=more_or more-sequence=more_sequence more-sound=more_sound more-star=more_star more-stops=more_stops
moreBy=more_by names-are=names_are negating-by=negating_by negating-enters=negating_enters never-by=never_by
no-bad-mark=no_bad_mark no-bad-target=no_bad_target no-command=no_command no-first=no_first no-list=no_list
no-refusal=no_refusal node-from=node_from nodeLine=node_line none-and=none_and none-fails=none_fails
none-none=none_none none-sequence=none_sequence none-spotted=none_spotted noneNode=none_node not-before=not_before
not-fault=not_fault not-fine=not_fine not-not=not_not not-stops=not_stops notBy=not_by nothing-apart=nothing_apart
nothing-behind=nothing_behind nothing-inside=nothing_inside nth-take=nth_take nullable-decides=nullable_decides
nullableAt=nullable_at nullableAt-append=nullable_at-append number-below=number_below number-full=number_full
numbered-found=numbered_found numbered-full=numbered_full ok-never=ok_never ok-parts=ok_parts on-by=on_by
on-by-sign=on_by_sign on-fault=on_fault one-too-few=one_too_few one-tree=one_tree onsetOf=onset_of
onward-asking=onward_asking onward-cut=onward_cut onward-same=onward_same onwardBy=onward_by
onwardBy-asking=onward_by_asking onwardBy-cut=onward_by_cut onwardBy-met=onward_by-met onwardBy-same=onward_by_same
open-bracket=open_bracket open-part=open_part open-refused=open_refused opened-ok=opened_ok operand-due=operand_due
operand-fault=operand_fault operand-stops=operand_stops operandDepth=operand_depth or-again=or_again or-all=or_all
or-both=or_both or-grouped=or_grouped or-joins=or_joins or-last=or_last or-none=or_none or-second=or_second
or-twice=or_twice orRight=or_right orderly-bind=orderly_bind orderly-chained=orderly_chained
orderly-entered=orderly_entered orderly-interned=orderly_interned orderly-kept=orderly_kept
orderly-merged=orderly_merged orderly-negated=orderly_negated orderly-tree=orderly_tree orderly-two=orderly_two
outcome-asked=outcome_asked outcome-done=outcome_done outcome-full=outcome_full outcome-refused=outcome_refused
over-ok=over_ok over-on=over_on pair-by=pair_by parsedText=parsed_text part-below=part_below part-long=part_long
parts-from-below=parts_from_below pass-is=pass_is passed-as=passed_as passed-bad=passed_bad passed-check=passed_check
passed-enter=passed_enter passed-room=passed_room passedBelow=passed_below passedBelow-more=passed_below_more
passedBelow-none=passed_below_none passedInto=passed_into passes-add=passes_add passes-gain=passes_gain
passes-more=passes_more passes-still=passes_still past-fault=past_fault past-fine=past_fine past-ok=past_ok
phasedBy=phased_by picked-falls=picked_falls pickedOf=picked_of place-on=place_on placed-lexFrom=placed-lex_from
placed-onwardBy=placed-onward_by pool-is-no-text=pool_is_no_text poolOf=pool_of prefix-by=prefix_by
prefix-done=prefix_done prefix-full=prefix_full prefix-none=prefix_none prefix-plain=prefix_plain
prefix-refused=prefix_refused prefix-stopped=prefix_stopped proper-bracket=proper_bracket proper-piece=proper_piece
rank-gains=rank_gains rank-le=rank_le raw-recorded=raw_recorded rawBy=raw_by reaches-by=reaches_by
reaches-itself=reaches_itself read-bad=read_bad read-complete=read_complete read-enters=read_enters
read-fault=read_fault read-fine=read_fine read-sound=read_sound read-stops=read_stops read-within=read_within
read-zero=read_zero readInto=read_into readText=read_text record-at=record_at refused-is=refused_is
refused-never=refused_never repeated-by=repeated_by repeated-grown=repeated_grown repeated-refused=repeated_refused
rest-asking=rest_asking rest-signed=rest_signed right-added=right_added right-header=right_header
right-listed=right_listed right-mark=right_mark roomAsked=room_asked row-coded=row_coded row-gains=row_gains
row-passed=row_passed rowHead=row_head rows-gain=rows_gain rowsIn=rows_in rule-fault=rule_fault
rule-fault-by=rule_fault_by ruleJoin=rule_join ruleOf=rule_of ruleOf-append=rule_of-append same-and=same_and
same-derivative=same_derivative same-exact=same_exact same-flag-itself=same_flag_itself same-grown=same_grown
same-itself=same_itself same-lang=same_lang same-led=same_led same-mark=same_mark same-nullable=same_nullable
same-path=same_path same-sequence=same_sequence same-star=same_star same-stops=same_stops same-sym=same_sym
same-trans=same_trans same-unless-differ=same_unless_differ same-unless-mixed=same_unless_mixed sameFlag=same_flag
sameNode=same_node says-from-stands=says_from_stands scan-all=scan_all scan-append=scan_append scan-failed=scan_failed
scan-found=scan_found scan-more=scan_more scan-operand=scan_operand scan-parts=scan_parts secondPart=second_part
seesNo=sees_no seesYes=sees_yes sequence-derived=sequence_derived sequence-empty=sequence_empty
sequence-none=sequence_none sequence-phases=sequence_phases shut-ends=shut_ends shut-enters=shut_enters
sighted-on=sighted_on sign-if-longer=sign_if_longer signed-fault=signed_fault single-by=single_by
single-done=single_done single-onward=single_onward single-refused=single_refused size-asks=size_asks
size-lexFrom=size-lex_from size-onwardBy=size-onward_by size-spots=size_spots sizeOn=size_on skip-more=skip_more
skip-none=skip_none sound-at=sound_at sound-by=sound_by_lem sound-from=sound_from sound-long=sound_long
sound-push=sound_push soundAs=sound_as soundBy=sound_by spelled-bracket=spelled_bracket split-falls=split_falls
split-members=split_members split-spots=split_spots splitBy=split_by splitOf=split_of spotted-by=spotted_by
spotted-later=spotted_later stands-from-says=stands_from_says star-append=star_append star-derived=star_derived
star-empty=star_empty star-empty-only=star_empty_only star-first=star_first star-flat=star_flat star-map=star_map
star-none=star_none star-once=star_once star-one=star_one star-refused=star_refused star-small=star_small
star-star=star_star starOn=star_on starring-by=starring_by starring-enters=starring_enters startsAs=starts_as
step-fault=step_fault step-file-bytes=step_file_bytes step-fine=step_fine step-sound=step_sound step-stops=step_stops
stepFile=step_file still-passedBelow=still_passed_below stopped-fault=stopped_fault stops-here=stops_here
stops-tighter=stops_tighter tableIn=table_in take-comm=take_comm taken-by=taken_by taken-fault=taken_fault
taken-less=taken_less taken-on=taken_on target-bad=target_bad target-good=target_good target-test=target_test
target-there=target_there targetAt=target_at targets-yes=targets_yes tells-first-unsound=tells_first_unsound
text-asks=text_asks text-complete=text_complete text-is=text_is text-means=text_means text-sound=text_sound
textAt=text_at textIn=text_in textLengthIn=text_length_in textsIn=texts_in then-err=then_err then-fine=then_fine
token-first=token_first tokenOf=token_of tokens-all=tokens_all tokensFrom=tokens_from tokensFrom-step=tokens_from_step
tokensIn=tokens_in tokensIn-append=tokens_in-append turn-none=turn_none turn-operand=turn_operand turn-put=turn_put
turn-refused=turn_refused unexpected-asks=unexpected_asks unexpected-on=unexpected_on unit-right=unit_right
unless-empty=unless_empty unlessFound=unless_found unmixed-if-same=unmixed_if_same unplaced-tokens=unplaced_tokens
versionIn=version_in views-after-header=views_after_header views-after-marks=views_after_marks
views-after-targets=views_after_targets weave-all=weave_all weight-le=weight_le whole-ok=whole_ok
whole-refuses=whole_refuses wholly-end=wholly_end wholly-ok=wholly_ok wholly-refuses=wholly_refuses
with-same=with_same withBy=with_by within-asking=within_asking within-cut=within_cut within-far=within_far
within-few=within_few within-shorter=within_shorter within-spots=within_spots worked-enough=worked_enough
worked-says=worked_says worked-still=worked_still workedIn=worked_in write-all=write_all write-more=write_more
written-by=written_by written-ok=written_ok written-scans=written_scans wrong-asked=wrong_asked
wrong-parsed=wrong_parsed wrong-tree=wrong_tree yes-first=yes_first
"""

# the names of fields, which stand behind a dot
FIELDS = "header-yes horizon-is length-true marks-yes not-before pass-is targets-yes text-is"

NAME = re.compile(r"(?<![\w'\-≤≡≢])[A-Za-z_][\w'≤≡≢]*(?:-[\w'≤≡≢+*∙]+)*")
STRING = re.compile(r'b?"(?:\\.|[^"\\])*"')
QUOTED = re.compile(r"`[^`\n]*`")


def table():
    names = dict(pair.split("=", 1) for pair in NAMES.split())
    taken = [new for new in names.values() if list(names.values()).count(new) > 1]
    if taken:
        sys.exit(f"two names become one: {sorted(set(taken))}")
    return names


def respelled(text, names, fields):
    def turn(match):
        old = match[0]
        behind_dot = match.start() > 0 and text[match.start() - 1] == "." and not text[: match.start()].endswith("..")
        if behind_dot and old not in fields:
            return old
        return names.get(old, old)

    return NAME.sub(turn, text)


def outside_strings(text, names, fields):
    parts, at = [], 0
    for string in STRING.finditer(text):
        parts += [respelled(text[at : string.start()], names, fields), string[0]]
        at = string.end()
    return "".join(parts) + respelled(text[at:], names, fields)


def main():
    names = table()
    fields = set(FIELDS.split())
    # a dash in code is a minus
    in_code = {old: new for old, new in names.items() if "-" not in old}
    for path in sorted(Path("crates").rglob("*")):
        if "out" in path.parts or not path.is_file():
            continue
        if path.suffix == ".antt":
            turn = lambda text: respelled(text, names, fields)
        elif path.suffix == ".rt":
            turn = lambda text: outside_strings(text, in_code, set())
        elif path.suffix == ".edit":
            turn = lambda text: outside_strings(text, in_code | KIT, set())
        else:
            continue
        change(path, turn)
    for path in [Path("README.md"), *sorted(Path("docs").glob("*.md"))]:
        if path.name not in ("PORT.md", "PORT-OTHER.md"):
            change(path, lambda text: QUOTED.sub(lambda quoted: respelled(quoted[0], in_code | KIT, set()), text))


def change(path, turn):
    old = path.read_text(encoding="utf-8")
    new = turn(old)
    if new != old:
        path.write_text(new, encoding="utf-8")


# what the kit's script had turned, as documents still have it
KIT = dict(
    pair.split("=", 1)
    for pair in """
baseBy=base_by byteAt=byte_at endedOf=ended_of entryAt=entry_at firstOf=first_of heldOf=held_of isLast=is_last kindOf=kind_of
membersOf=members_of namesOf=names_of numberOf=number_of orElse=or_else pieceAt=piece_at pieceOf=piece_of putIn=put_in
readBy=read_by rowAt=row_at rowLine=row_line signOf=sign_of startAt=start_at tableAt=table_at wordAt=word_at
""".split()
)

if __name__ == "__main__":
    main()
