#!/usr/bin/env python3
"""Respells the repository's own definitions and lemmas: words in snake case, and a dash only between two names.

    python3 tools/respell.py        at the top of the repository, once, after the toolchain's own porting script

It goes over the .rt, .antt and .edit files below crates/ and changes whole names alone, those of the two tables here.
"""
import pathlib
import re

# Definitions that were in camel case. One would have got the name of a function of its file, and is named otherwise.
DEFINITIONS = """
    aheadBy=ahead_by aheadLine=ahead_line aheadTok=ahead_tok atLine=at_line bodySeen=body_seen commandAt=command_at
    commandsOf=commands_of countAt=count_of countsAt=counts_at countsIn=counts_in faultNumber=fault_number
    fileOf=file_of formulaBy=formula_by fullNumber=full_number joinedBy=joined_by jointLine=joint_line
    jointTok=joint_tok leadTok=lead_tok leastPlaces=least_places longestJob=longest_job markTok=mark_tok
    marksOf=marks_of mostBytes=most_bytes mostLines=most_lines nameBytes=name_bytes nameCommand=name_command
    outBytes=out_bytes outCommand=out_command outsSeen=outs_seen refusedLine=refused_line ringNumber=ring_number
    rowCommands=row_commands ruleNumber=rule_number stateAt=state_at stateBytes=state_bytes
    stateCommands=state_commands stateSeen=state_seen termsOf=terms_of veiledMarks=veiled_marks
"""

# Lemmas whose dashes stood between plain words. Three would have fallen together with another name, and are named otherwise.
LEMMAS = """
    T-or=T_or after-state=after_state ahead-open=ahead_open ahead-real=ahead_real ahead-same=ahead_same all-at=all_at
    and-holds=and_holds answer-more=answer_more at-exit-made=at_exit_made begins-same=begins_same bit-power=bit_power
    bit-suc=bit_suc bit-zero=bit_zero blank-same=blank_same blank-tabled=blank_tabled body-naming=body_naming
    can-more=can_more code-some=code_some collect-add=collect_add collect-skip=collect_skip
    command-refused=command_refused commands-same=commands_same commands-spelled=commands_spelled
    count-above=count_above count-below=count_below count-written=count_written counts-keep=counts_keep
    due-close=due_close due-end=due_end due-goes=due_goes due-greater=due_greater due-last=due_last
    due-later=due_later due-name=due_name due-next=due_next due-ones=due_ones due-out=due_out due-path=due_path
    due-spoken=due_spoken due-start=due_start due-state=due_state due-until=due_until encode-once=encode_once
    encode-parts=encode_parts ended-never=ended_never ended-once=ended_once ends-here=ends_here
    extends-more=extends_more extends-none=extends_none extends-room=extends_room factor-self=factor_self
    fails-blanks=fails_blanks fails-few=fails_few fails-in=fails_in fails-not=fails_not fails-number=fails_number
    fails-once=fails_once fails-stop=fails_stop fails-verdict=fails_verdict file-commands=file_commands
    file-leads=file_leads file-length=length-file_of file-parts=file_parts file-same=file_same
    first-letter=first_letter flat-ahead=flat_ahead flat-joined=flat_joined flatten-some=flatten_some
    frame-ahead=frame_ahead frame-first=frame_first frame-left=frame_left frame-not=frame_not
    frame-second=frame_second frame-whole=frame_whole fronts-same=fronts_same getD-upto=get_or-upto
    goes-agents=goes_agents group-more=group_more grouped-gap=grouped_gap grouped-kin=grouped_kin
    head-leads=head_leads in-state=in_state inner-other=inner_other inv-less=inv_less inv-name=inv_name
    inv-not=inv_not inv-open=inv_open inv-path=inv_path inv-true=inv_true items-same=items_same
    joined-append=joined_append joined-upto=joined_upto joint-in=joint_in joint-real=joint_real joint-same=joint_same
    joint-written=joint_written kept-le=kept_le kept-lt=kept_lt kept-pos=kept_pos kept-too=kept_too last-at=last_at
    last-new=last_new last-room=last_room lawful-more=lawful_more lawful-take=lawful_take leads-all=leads_all
    leads-append=leads_append leads-drop=leads_drop leads-end=leads_end leads-gap=leads_gap leads-kin=leads_kin
    leads-less=leads_less leads-pass=leads_pass leads-push=leads_push leads-to=leads_to leads-upto=leads_upto
    lex-one=lex_one lexes-front=lexes_front lexes-more=lexes_more lexes-real=lexes_real like-same=like_same
    members-head=members_head members-next=members_next members-same=members_same members-some=members_some
    members-spoken=members_spoken missed-fails=missed_fails moment-same=moment_same moves-at=moves_at
    moves-fit=moves_fit moves-le=moves_le moves-pos=moves_pos moves-same=moves_same moves-with=moves_with
    name-agents=name_agents name-due=name_due name-eight=name_eight name-leads=name_leads name-length=name_length
    name-made=name_made name-padded=name_padded names-back=names_back names-few=names_few names-lead=names_lead
    names-length=names_length names-spelled=names_spelled never-refused=never_refused next-ended=next_ended
    next-fails=next_fails no-agent=no_agent no-agents=no_agents no-file=no_file no-mark=no_mark no-space=no_space
    none-hold=none_hold none-lawful=none_lawful none-there=none_there not-holds=not_holds number-some=number_some
    on-time=on_time ones-holds=ones_holds only-close=only_close only-greater=only_greater only-group=only_group
    only-joint=only_joint only-last=only_last only-path=only_path only-start=only_start only-until=only_until
    operands-length=operands_length or-holds=or_holds other-there=other_there out-leads=out_leads
    outcomes-more=outcomes_more outcomes-same=outcomes_same outs-due=outs_due outs-length=outs_length
    outs-more=outs_more outs-next=outs_next outs-none=outs_none outs-spelled=outs_spelled outs-wrong=outs_wrong
    over-ahead=over_ahead over-fit=over_fit over-joined=over_joined own-lt=own_lt own-periodic=own_periodic
    padded-long=padded_long padded-space=padded_space padded-word=padded_word parsed-accepts=parsed_accepts
    part-copied=part_copied part-long=part_long parted-before=parted_before parted-told=parted_told
    parts-few=parts_few parts-small=parts_small power-holds=power_holds print-ahead=print_ahead print-free=print_free
    print-joined=print_joined print-one=print_one print-spoken=print_spoken product-fits=product_fits
    product-more=product_more product-past=product_past puts-more=puts_more puts-room=puts_room puts-same=puts_same
    question-more=question_more question-none=question_none question-push=question_push real-left=real_left
    real-right=real_right refused-once=refused_once repeat-first=repeat_first repeat-fits=repeat_fits
    repeat-more=repeat_more rising-at=rising_at rising-from=rising_from row-spelled=row_spelled
    rows-tabled=rows_tabled rule-at=rule_at ruled-front=ruled_front ruled-more=ruled_more run-each=run_each
    run-some=run_some run-unique=run_unique said-new=said_new said-old=said_old same-ranged=same_ranged
    search-below=search_below seen-shown=seen_shown shifted-out=shifted_out short-there=short_there
    sign-other=sign_other six-counts=six_counts sofar-more=sofar_more sofar-refused=sofar_refused
    sofar-start=sofar_start some-member=some_member spaces-after=spaces_after spelled-once=spelled_once
    spells-real=spells_real spells-some=spells_some spells-strange=spells_strange spells-unique=spells_unique
    spells-within=spells_within stands-end=stands_end stands-name=stands_name stands-out=stands_out
    stands-state=stands_state starts-gap=starts_gap starts-kin=starts_kin state-bytes=state_bytes_lem
    state-here=state_here state-in=state_in state-leads=state_leads state-length=state_length state-same=state_same
    stated-at=stated_at states-lead=states_lead states-ranged=states_ranged states-same=states_same
    states-spelled=states_spelled strange-alone=strange_alone stuck-in=stuck_in t-agents=t_agents t-always=t_always
    t-and=t_and t-close=t_close t-end=t_end t-gap=t_gap t-greater=t_greater t-less=t_less t-next=t_next t-or=t_or
    t-until=t_until tabled-out=tabled_out tell-front=tell_front tell-more=tell_more tens-length=tens_length
    to-come=to_come tok-is=tok_is tok-some=tok_some tok-unique=tok_unique tok-within=tok_within too-deep=too_deep
    total-is=total_is until-tells=until_tells upto-front=upto_front upto-grows=upto_grows upto-more=upto_more
    upto-same=upto_same whole-file=whole_file whole-ranged=whole_ranged whole-state=whole_state
    whole-wrong=whole_wrong word-ends=word_ends word-known=word_known word-padded=word_padded word-proper=word_proper
    word-unique=word_unique word-unknown=word_unknown words-apart=words_apart written-begins=written_begins
    wrong-at=wrong_at wrong-before=wrong_before
"""

NAMES = dict(pair.split("=") for pair in (DEFINITIONS + LEMMAS).split())
TOKEN = re.compile(r"[^\s(){}\[\].,;:=|\"`\u231c\u231d]+")


def respelled(text):
    return TOKEN.sub(lambda m: NAMES.get(m.group(0), m.group(0)), text)


changed = 0
for path in sorted(pathlib.Path("crates").rglob("*")):
    if path.suffix in (".rt", ".antt", ".edit") and path.is_file() and "out" not in path.parts:
        old = path.read_text(encoding="utf-8")
        new = respelled(old)
        if new != old:
            path.write_text(new, encoding="utf-8")
            changed += 1
print(f"respell: {changed} files")
