#!/usr/bin/env python3
"""Gives the repository's own definitions, constructors, fields and lemmas the spelling of today's Rattle.

usage: python3 tools/respell.py        once, at the top of the repository, after /opt/rattle/port/port.py

Words are in snake case and types in camel case. It goes by whole names, in .antt files and in the contracts and
ghost imports of .rt files; functions, strings and comments keep what they say. A name is never turned where it is a
field that Rattle makes, as in c.new-input.
"""

import os
import re

# constructors of the tree of a package, which stood in capitals
CONSTRUCTORS = """
    ADD add, BITS bits, BLOCK numbered_block, CALL call_procedure, CELL cell_item, CHOOSE choose_block,
    COMBINE combine_places, COPY copy_place, DEVICE device_item, DRIVE drive_device, END no_commands,
    ENTRY entry_item, GRANT grant_block, INPUT input_item, LESS less, LOOP loop_block, PARTY party_item,
    PICK pick_cell, PLAIN plain_command, PROC procedure_declaration, PUT put_cell, SAME same, SET set_place,
    SIMPLE simple_declaration, SUB sub, TABLE table_item, THEN then_command, TRY try_frame, WHEN when_place
"""

# fields of records
FIELDS = """
    byLevels by_levels, byLevelsBroad by_levels_broad, byRights by_rights, byRightsBroad by_rights_broad,
    few-blocks few_blocks, few-devices few_devices, few-entries few_entries, few-parties few_parties,
    few-places few_places, few-procedures few_procedures, few-tables few_tables, full-holds full_holds,
    mix-holds mix_holds
"""

# definitions and lemmas
NAMES = """
    EveryB EveryBlock, EveryS EveryCommands, KeepsB KeepsBlock, KeepsS KeepsCommands, NamedB NamedBlock,
    NamedS NamedCommands, Names-below NamesBelow, ReadB ReadBlock, ReadL ReadDeclarations, ReadS ReadCommands,
    above-length above_length, above-none above_none, above-pop above_pop, above-push above_push,
    accepted-exactly accepted_exactly_lem, accepted-lawful accepted_lawful_lem, accepted-post accepted_post,
    accepts-read accepts_read, act-any act_any, act-falls act_falls, act-keeps act_keeps, actFront act_front,
    afterAll after_all, agree-call agree_call, agree-cycle agree_cycle, agree-devices agree_devices,
    agree-new agree_new, agree-read agree_read, agree-seen agree_seen, agree-struck agree_struck,
    agree_b agree_block, agree_s agree_commands, alike-combined alike_combined, alike-copied alike_copied,
    alike-pick alike_pick, alike-picked alike_picked, alike-putIn alike_put_in, all-as-it-was all_as_it_was_lem,
    all-complete all_complete, all-joined all_joined, all-lawful all_lawful, allSpans all_spans,
    always-all always_all, always-in always_in, always-whole always_whole_lem, and-and and_and,
    and-digit and_digit, and-more and_more, answerTo answer_to, around-it around_it, as-many-blocks as_many_blocks,
    as-many-bodies as_many_bodies, assigns-block assigns_block, assigns-declared assigns_declared,
    assigns-writes assigns_writes, at-hand-lawful at_hand_lawful_lem, at-lead at_lead, behind-choice behind_choice,
    behind-is behind_is, beyond-is beyond_is, bit-and bit-bit_and, bit-none bit_none, bit-or bit-bit_or,
    bit-suc bit_suc, bit-zero bit_zero, block-behind block_behind, block-complete block_complete,
    block-ends block_ends, block-found block_found, block-lies block_lies, block-named block_named,
    block-number block_number, block-stops block_stops, block-takes block_takes, block-tells block_tells,
    block-told block_told, bodied-complete bodied_complete, bodied-sound bodied_sound, bodies-joined bodies_joined,
    body-complete body_complete, body-found body_found, body-lies body_lies, body-most body_most,
    body-none body_none, body-short body_short, body-sound body_sound, body-stands body_stands,
    body-takes body_takes, body-there body_there, body-walks body_walks, bodyLevel body_level,
    bodyLines body_lines, bodySteps body_steps, both-all both_all, both-in both_in, both-lie both_lie,
    brief-body brief_body, broad-from broad_from, broad-lawful broad_lawful_lem, broad-parts broad_parts,
    broadAnswers broad_answers, by-added by_added, by-block by_block, by-checked by_checked, by-cond₂ by_cond₂,
    by-cut by_cut, by-demand by_demand, by-need by_need, by-procedure by_procedure, by-reason by_reason,
    by-tables by_tables, by-test by_test, by-then by_then, by-there by_there, byCode front_by_code, byLead by_lead,
    bytes-all bytes_all, bytes-at bytes_at, bytes-right bytes_right, bytes-test bytes_test,
    bytes-tested bytes_tested, call-got call_got, call-is call_is, call-keeps call_keeps, call-tells call_tells,
    call-told call_told, call-true call_true, called-past called_past, calledBelow called_below,
    calledIn called_in, calls-below calls_below, calls-block calls_block, calls-body calls_body,
    capped-loop capped_loop, carry-procedure carry_procedure, carry-procedures carry_procedures,
    carry-walks carry_walks, causeNumber cause_number, causeText cause_text, cell-found cell_found,
    cell-missed cell_missed, cell-shown cell_shown, cell-true cell_true, cells-all cells_all,
    cells-block cells_block, cells-body cells_body, check-passes check_passes, checkedAll checked_all,
    choice-behind choice_behind, choice-head choice_head_long, choice-length choice_length,
    choice-more choice_more, choice-of choice_of, choice-tells choice_tells, choice-told choice_told,
    choice-true choice_true, choiceAt choice_at, choiceBytes choice_bytes, choiceHead choice_head,
    choose-keeps choose_keeps, close-falls close_falls, close-keeps close_keeps, closeLoop closed_loop,
    closed-decide closed_decide, closed-in-step closed_in_step, closed-nowhere closed_nowhere,
    closed-put closed_put, closed-turn closed_turn, closed-turns closed_turns, closed-write closed_write,
    code-true code_true, coded-parts coded_parts, command-long command_long, commandBytes command_bytes,
    commandLines command_lines, confined-all confined_all, confined-block confined_block,
    confined-calls confined_calls, confined-choice confined_choice, confined-decide confined_decide,
    confined-drive confined_drive, confined-driveBy confined_drive_by, confined-lower confined_lower,
    confined-plain confined_plain, confined-put confined_put, confined-refl confined_refl,
    confined-tick confined_tick, confined-trans confined_trans, confined-turns confined_turns,
    confined-wider confined_wider, confined-write confined_write, contentsFrom contents_from,
    contentsOf contents_of, cut-seam cut_seam, cycle-bounded cycle_bounded_lem, cycle-leaves cycle_leaves,
    cycleAnswer cycle_answer, cycleMost cycle_most, declareSimple declare_simple, deviceIn device_in,
    devicesSeen devices_seen, driveBy drive_by, each-flip each_flip, each-join each_join, each-length each_length,
    each-lower each_lower, each-lower-right each_lower_right, each-refl each_refl, each-self each_self,
    each-set-left each_set_left, each-set-right each_set_right, each-trans each_trans, each-weaker each_weaker,
    eight-at eight_at, either-within either_within, encodeB encode_block, encodeS encode_commands,
    enteredAll entered_all, entries-bounded entries_bounded_lem, entries-leave entries_leave,
    entries-take entries_take, entry-brief entry_brief, entry-long entry_long, entry-true entry_true,
    entryRun entry_run, every-block every_block, finish-sound finish_sound, first-confined first_confined,
    first-gap first_gap, first-none first_none, first-stays first_stays, first-there first_there,
    first-told first_told, fits-body fits_body, fits-inner fits_inner, fits-loop fits_loop, flatOf flat_of,
    flip-digit flip_digit, four-at four_at, four-small four_small, frame-true frame_true, front-falls front_falls,
    front-none front_none, front-true front_true, front-unknown front_unknown, full-bit full_bit,
    gap-covers gap_covers, gap-none gap_none, gap-some gap_some, getD-lowered get_or-lowered,
    going-again going_again, going-asks going_asks, going-bad going_bad, going-hit going_hit,
    going-refused going_refused, going-stops going_stops, grant-got grant_got, grant-keeps grant_keeps,
    grant-tells grant_tells, grant-told grant_told, grant-true grant_true, grantAt grant_at, grantHead grant_head,
    grantedIn granted_in, grows-calls grows_calls, grows-closes grows_closes, grows-commands grows_commands,
    grows-entries grows_entries, grows-finishes grows_finishes, grows-goal grows_goal, grows-next grows_next,
    grows-resumes grows_resumes, height-at height_at, height-below height_below, height-is height_is,
    heightsOf heights_of, highestB highest_block, highestOf highest_of, highestS highest_commands,
    holds-both holds_both, holdsRight holds_right, in-bodies in_bodies, in-command in_command,
    in-commands in_commands, in-step-at in_step_at, in-step-driveBy in_step_drive_by, in-step-lower in_step_lower,
    in-step-tick in_step_tick, in-step-write in_step_write, input-true input_true,
    inputs-are-posted inputs_are_posted_lem, insideS inside_commands, isDevice is_device, isParty is_party,
    isPlace is_place, isRight is_right, item-as item_as, item-off item_off, itemBytes item_bytes,
    keeps-block keeps_block, keeps-calls keeps_calls, keeps-command keeps_command, keeps-commands keeps_commands,
    keeps-decide keeps_decide, keeps-entries keeps_entries, keeps-turns keeps_turns, knows-below knows_below,
    lacks-left lacks_left, lacks-pick lacks_pick, lacks-right lacks_right, laid-behind laid_behind,
    laid-front laid_front, laid-later laid_later, laid-rest laid_rest, laid-taken laid_taken,
    lawful-bytes lawful_bytes, lawful-procedure lawful_procedure, lawful-simple lawful_simple, laws-of laws_of,
    lay-as lay_as, lay-block lay_block, lay-body lay_body, lay-command lay_command, lay-end lay_end,
    lay-ends lay_ends, lay-first lay_first, lay-front lay_front, lay-inner lay_inner, lay-next lay_next,
    lay-part lay_part, lay-second lay_second, lay-spans lay_spans, lay-tree lay_tree, lead-least lead_least,
    lead-most lead_most, lead-of lead_of, lead-true lead_true, leads-least leads_least, leads-most leads_most,
    leads-of leads_of, leaves-drive leaves_drive, leaves-lower leaves_lower, leaves-next leaves_next,
    leaves-plain leaves_plain, leaves-put leaves_put, leaves-write leaves_write, leavesAll leaves_all,
    left-turns left_turns, length-insideS length-inside_commands, levels-lawful levels_lawful, lie-at lie_at,
    lie-length lie_length, listed-joined listed_joined, locked-all locked_all, locked-block locked_block,
    locked-calls locked_calls, locked-command locked_command, locked-decide locked_decide,
    locked-drive locked_drive, locked-entries locked_entries, locked-plain locked_plain, locked-put locked_put,
    locked-turns locked_turns, long-body long_body, loop-falls loop_falls, loop-got loop_got,
    loop-keeps loop_keeps, loop-stops loop_stops, loop-tells loop_tells, loop-told loop_told, loop-true loop_true,
    loopAt loop_at, low-block low_block, low-body low_body, low-command low_command, low-commands low_commands,
    lowerAll lower_all, lowered-alike lowered_alike, lowering-end lowering_end, lowering-named lowering_named,
    lowering-other lowering_other, lowering-start lowering_start, lowers-as lowers_as, lowest-bit lowest_bit,
    map-past map_past, max-widens max_widens, most-of most_of_all, mostB most_block, mostS most_commands,
    named-all named_all, named-at named_at, named-block named_block, named-body named_body,
    named-commands named_commands, named-whole named_whole, namedFor named_for, names-all names_all,
    names-block names_block, names-bodies names_bodies, never-driven never_driven, new-held new_held,
    new-input new_input_lacks, new-length new_length, newCell new_cell, newDevice new_device, newInput new_input,
    next-sound next_sound, nextItem next_item, no-call-told no_call_told, no-cause no_cause, no-level no_level,
    no-procedures no_procedures, noInput no_input, noProcedure no_procedure, noSpan no_span, noTable no_table,
    not-deepest not_deepest, numbered-all numbered_all, numbered-at numbered_at, numbered-block numbered_by_block,
    numbered-bodies numbered_bodies, numbered-in numbered_in, of-block of_block, of-commands of_commands,
    of-placed of_placed, off-bytes off_bytes, on-item on_item, one-complete one_complete, one-sound one_sound,
    operationByte operation_byte, or-digit or_digit, or-widens or_widens, other-is other_is,
    owner-hides owner_hides, ownerFrame owner_frame, pair-got pair_got, pair-true pair_true, pairs-all pairs_all,
    pairs-append pairs_append, pairs-at pairs_at, pairs-block pairs_block, pairs-bodies pairs_bodies,
    pairs-in pairs_in, pairs-length pairs_length, partLines part_lines, parts-bytes parts_bytes,
    parts-sound parts_sound, partyFrame party_frame, passing-all passing_all, passing-more passing_more,
    passing-none passing_none, passing-same passing_same, passing-suc passing_suc, placeLines place_lines,
    placed-block placed_block, placed-bodies placed_bodies, placed-body placed_body, places-joined places_joined,
    plain-any plain_any, plain-keeps plain_keeps, plain-long plain_long, plain-tells plain_tells,
    plain-told plain_told, plainBytes plain_bytes, plainNamed plain_named, plainTargets plain_targets,
    postAnswer post_answer, posted-value posted_value, proc-true proc_true, procAt proc_at, procHead proc_head,
    procedure-at procedure_at_lem, procedureLines procedure_lines, push-cycle push_cycle, push-lie push_lie,
    push-procedure push_procedure, push-spans push_spans, read-accepted read_accepted, read-body read_body_lem,
    read-complete read_complete, read-end read_end, read-front read_front, read-sound read_sound,
    readAnswer read_answer, readPackage read_package, readSeen read_seen, reading-keeps reading_keeps,
    refusalNumber refusal_number, refused-exactly refused_exactly, refused-read refused_read,
    refused-unmoved refused_unmoved_lem, rests-drive rests_drive, rests-plain rests_plain, rests-put rests_put,
    rights-lawful rights_lawful, round-again round_again, round-end round_end, round-runs round_runs,
    round-start round_start, round-ticks round_ticks, runB run_block, runEntries run_entries, runPlain run_plain,
    runS run_commands, runs-commands runs_commands, runs-writes runs_writes, same-cell same_cell,
    same-devices same_devices, same-procedure same_procedure, same-procedures same_procedures,
    same-program same_program, same-spans same_spans, second-confined second_confined, second-there second_there,
    second-told second_told, seen-new seen_new, seen-remaining seen_remaining, seenFrom seen_from,
    sequenceLines sequence_lines, set-got set_got, set-true set_true, share-and share_and, share-or share_or,
    short-block short_block, short-item short_item, short-of short_of, short-plain short_plain,
    showAnswer show_answer, shows-refl shows_refl, shows-trans shows_trans, simpleBytes simple_bytes,
    simpleLead simple_lead, sizeB size_block, sizeS size_commands, smallB small_block, smallS small_commands,
    smallest-lawful smallest_lawful_lem, smallest-least smallest_least_lem, spans-size spans_size,
    spans-sizeB spans_size_block, spans-sizeS spans_size_commands, spansB spans_block, spansOf spans_of,
    spansS spans_commands, stand-all stand_all, stand-block stand_block, stand-bodies stand_bodies,
    stand-in stand_in, standing-in standing_in, step-at step_at, step-complete step_complete,
    step-rests step_rests, steps-joined steps_joined, stops-grant stops_grant, table-found table_found,
    table-true table_true, take-front take_front, take-grows take_grows, takes-block takes_block,
    takes-both takes_both, takes-call takes_call, takes-command takes_command, takes-commands takes_commands,
    takes-decide takes_decide, takes-lower takes_lower, takes-more takes_more, takes-tick takes_tick,
    takes-turns takes_turns, target-cell target_cell, target-declared target_declared, target-itself target_itself,
    tellChoice tell_choice, tellOperation tell_operation, tellPlain tell_plain, telling-end telling_end,
    telling-on telling_on, telling-start telling_start, then-on then_on, told-as told_as, told-lacks told_lacks,
    toldSteps told_steps, took-off took_off, trail-stays trail_stays_lem, trail-tells trail_tells_lem,
    trailAfter trail_after, triple-got triple_got, triple-true triple_true, tripleAt triple_at, try-got try_got,
    try-true try_true, turn-close turn_close, turn-falls turn_falls, turn-front turn_front, turn-keeps turn_keeps,
    turnLevel turn_level, turns-keep turns_keep, two-tell two_tell, twoBlocks two_blocks, value-lower value_lower,
    values-all values_all, walked-choose walked_choose, walked-grant walked_grant, walked-grows walked_grows,
    walked-plain walked_plain, walkingAnswers walking_answers, wasRead was_read, weaker-all weaker_all,
    weaker-in weaker_in, when-got when_got, whole-after whole_after, whole-all whole_all,
    whole-halves whole_halves, whole-new whole_new, with-procedure with_procedure, withEntry with_entry,
    withPlaces with_places, writesB writes_block, writesS writes_commands
"""

# what imports are called in contracts
ALIASES = """
    actOf act_of, blockCount block_count, bodiesOf bodies_of, broadSets broad_sets, closeOf close_of,
    combineOf combine_of, cycleOf cycle_of, driveOf drive_of, flatChoose flat_choose, flatGrant flat_grant,
    flatLoop flat_loop, flatTurns flat_turns, isCell is_cell, isTable is_table, lowerIn lower_in, mayLead may_lead,
    newOf new_of, obstacleOf obstacle_of, operationOf operation_of, ownsIt owns_it, placeAt place_at,
    toldBy told_by, unreadNumber unread_number
"""

NAME = re.compile(r"[^\s(){}\[\];,.:«»λ&|!?\"@]+")
GHOST = re.compile(r"^\s*(ghost\b|requires\b|ensures\b)")


def table(text):
    return dict(pair.split() for pair in text.replace("\n", " ").split(",") if pair.strip())


CONSTRUCTOR, FIELD, OTHER = table(CONSTRUCTORS), table(FIELDS), table(NAMES) | table(ALIASES)


def respelled(line):
    def turn(m):
        name, before = m.group(0), line[: m.start()]
        if name in OTHER and re.search(r"[\w)']\.$", before):
            return name
        return CONSTRUCTOR.get(name) or FIELD.get(name) or OTHER.get(name) or name

    return NAME.sub(turn, line)


def antt(text):
    return "\n".join(line if line.lstrip().startswith("--") else respelled(line) for line in text.split("\n"))


def rt(text):
    """Only ghost lines and clauses; a clause that goes on over lines is followed to its closing brace."""
    out, depth = [], 0
    for line in text.split("\n"):
        ghost = depth > 0 or GHOST.match(line)
        if ghost and not line.lstrip().startswith("//"):
            depth = max(0, depth + line.count("{") - line.count("}"))
            line = respelled(line)
        out.append(line)
    return "\n".join(out)


def main():
    changed = 0
    for folder, dirs, files in os.walk("crates"):
        dirs[:] = sorted(d for d in dirs if d != "out")
        for file in sorted(files):
            turn = antt if file.endswith(".antt") else rt if file.endswith(".rt") else None
            if turn is None:
                continue
            path = os.path.join(folder, file)
            with open(path, encoding="utf-8") as f:
                old = f.read()
            new = turn(old)
            if new != old:
                changed += 1
                with open(path, "w", encoding="utf-8") as f:
                    f.write(new)
    print(f"respelled names in {changed} files")


main()
