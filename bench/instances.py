"""Writes the claims on runs as lemmas that compute, of worked runs and of changed ones, for tg_law_instances.

python3 bench/instances.py running > crates/tg_law_instances/proofs/Running.antt
python3 bench/instances.py stepping > crates/tg_law_instances/proofs/Stepping.antt
python3 bench/instances.py begun > crates/tg_law_instances/proofs/Begun.antt
python3 bench/instances.py changed > crates/tg_law_instances/proofs/Changed.antt
python3 bench/instances.py doctored > crates/tg_law_instances/proofs/Doctored.antt

The tests and the changes are those of proofs/Tests.antt, StepTests.antt and Changes.antt; the runs are those of tg_law_examples.
"""
import sys

import rows

# the file of tg_law_examples that has the run
RUNS = {
    'crossed_reads': 'First', 'orphan_decided': 'First', 'unsure_then_fate': 'First', 'refusals': 'First', 'hole_filled': 'First',
    'full_log': 'First', 'two_updates': 'First', 'page_carried_down': 'First',
    'new_sequencer': 'Moves', 'carried_by_scan': 'Moves', 'unit_joins': 'Moves', 'overtaken_and_refused': 'Moves',
    'checkpoints_and_trim': 'Moves', 'two_keys': 'Moves',
    'past_answers': 'Farther', 'past_trimmed': 'Farther', 'rescue_by_part': 'Farther', 'open_record': 'Farther',
    'rescue_and_trim': 'Farther',
    'view_plays_on': 'PlayingOn',
    'fenced_trim': 'Fenced',
}
# runs at each step and line of which each claim holds
HOLD = ['crossed_reads', 'orphan_decided', 'unsure_then_fate', 'refusals', 'full_log', 'new_sequencer', 'carried_by_scan',
        'unit_joins', 'overtaken_and_refused', 'checkpoints_and_trim', 'past_answers', 'past_trimmed', 'rescue_by_part',
        'rescue_and_trim', 'open_record', 'view_plays_on', 'fenced_trim']
# how many walks each of these ends, all of them exact in its last world
WALKS = {'crossed_reads': 4, 'unit_joins': 1, 'checkpoints_and_trim': 6, 'rescue_by_part': 5, 'fenced_trim': 5}
PATHS = ['crossed_reads', 'checkpoints_and_trim', 'view_plays_on', 'fenced_trim']
# the run of which claims are proved as they stand
PROVED = 'checkpoints_and_trim'
# runs of which it is proved that they reach their worlds, and that each entry was begun; and runs whose layouts follow one another
OWN = ['crossed_reads', 'checkpoints_and_trim', 'carried_by_scan', 'fenced_trim']
FOLLOW = ['new_sequencer', 'carried_by_scan', 'unit_joins', 'overtaken_and_refused', 'fenced_trim']
# settlings that begin with all packets lost: whether they answer the one that waits in time, and whether it was answered before
SETTLINGS = {'past_answers': ' ∷ '.join(['(true, false)'] * 5 + ['[]']), 'overtaken_and_refused': '(true, false) ∷ []'}
# a changed world of a run, and the claims that fail of it
WORLDS = [
    ('reply_of_crossed_reads', 'doctored 11', 'crossed_reads', 'IsLegal LogAgrees'),
    ('reply_of_trim', 'doctored 16', 'checkpoints_and_trim', 'LogAgrees'),
    ('reply_of_join', 'doctored 3', 'unit_joins', 'IsLegal LogAgrees'),
    ('reply_of_past', 'doctored 9', 'past_answers', 'LogAgrees'),
    ('reply_of_rescue', 'doctored 10', 'rescue_by_part', 'LogAgrees'),
    ('abort_of_the_last', 'replied_so named_late', 'crossed_reads', 'IsLegal LogAgrees'),
    ('record_undecided', 'undecided', 'orphan_decided', 'LogAgrees'),
    ('rescue_undecided', 'undecided', 'rescue_by_part', 'LogAgrees'),
    ('mark_of_another', 'replied_so marked_less', 'checkpoints_and_trim', 'LogAgrees'),
    ('record_before_reply', 'replied_so commits_later', 'past_answers', 'IsLegal LogAgrees InOrder'),
    ('page_twice', 'copied 1 7', 'two_updates', 'IsLegal Once Linked'),
    ('unheard_join', 'unheard', 'unit_joins', 'Linked LogAgrees'),
    ('untold_reads', 'untold', 'crossed_reads', 'IsLegal RecordsOwn'),
    ('trimmed_more', 'trimmed_more 0 4', 'checkpoints_and_trim', 'IsLegal TrimsSpare DirectoryTrue FatesTrue LogAgrees MarksRest'),
    ('unarchived_trim', 'unarchived', 'checkpoints_and_trim', 'IsLegal TrimsSpare FloorsStay CheckpointsTrue FatesTrue'),
    ('played_more', 'played_more 1 0', 'checkpoints_and_trim', 'DirectoryTrue'),
    ('replaced_page', 'replaced 0', 'checkpoints_and_trim', 'IsLegal CheckpointsTrue FatesTrue'),
    ('another_layout', 'two_layouts', 'unit_joins', 'OneLayout'),
    ('higher_seals', 'higher', 'carried_by_scan', 'LayoutsFollow'),
]
# what each of these changed worlds refutes: the claim, its test that failed, and the lemma that proves so
REFUTED = {
    'reply_of_trim': ('Alike kinds', 'some_alike_off', 'alike_refuted'),
    'record_undecided': ('Alike kinds', 'some_alike_off', 'alike_refuted'),
    'mark_of_another': ('Alike kinds', 'some_alike_off', 'alike_refuted'),
    'reply_of_past': ('PastTrue kinds', 'some_past_off', 'past_refuted'),
    'reply_of_rescue': ('RescueTrue kinds', 'some_rescue_off', 'rescue_refuted'),
    'abort_of_the_last': ('AbortsLeast kinds', 'some_aborts_off', 'aborts_refuted'),
    'played_more': ('DirectoryTrue kinds', 'some_directory_off', 'directories_refuted'),
    'replaced_page': ('CheckpointsTrue kinds', 'some_checkpoint_off', 'checkpoints_refuted'),
    'unarchived_trim': ('FloorsStay kinds', 'some_floor_off', 'floors_refuted'),
    'trimmed_more': ('TrimsSpare kinds', 'some_trim_off', 'trims_refuted'),
}
# changed steps of a run, and the claims that fail of each
STEPS = [
    ('viewless_asks', 'replied', '(with_client viewless 1)', 'hole_filled', 'Stands;Falls'),
    ('knows_all_pages', 'replied', '(λ w. with_client (knows_log w) 1 w)', 'page_carried_down', 'GivesUp;GivesUp'),
    ('reads_from_0', 'sends_reads', 'reads_low', 'plays_on_further', 'ReadsOn'),
    ('emptied_log', 'ends_walks', 'emptied', 'two_keys', 'SyncsExact;SyncsExact'),
    ('accepted_all', 'replied', '(replied_so accepted)', 'refusals', 'CausesRefuse;CausesRefuse;CausesRefuse;CausesRefuse;CausesRefuse;CausesRefuse'),
    ('wrong_cause', 'replied', 'last_wrong', 'open_record', 'CausesTrue'),
    ('wrong_trim', 'replied', 'last_wrong', 'past_trimmed', 'CausesTrue;CausesTrue'),
    ('stuck_untrimmed', 'replied', 'untrimmed', 'rescue_and_trim', 'CausesTrue StuckTrue'),
    ('none_there', 'replied', '(replied_so none_there)', 'unsure_then_fate', 'NonesTrue'),
    ('closed_by_refusals', 'replied', '(with_client closed 0)', 'refusals', 'RefusalsKeep;RefusalsKeep;RefusalsKeep;RefusalsKeep;RefusalsKeep'),
]
# a changed world of a run, what it refutes, its test that failed, and the lemma that proves so
DOCTORED = [
    ('none_begun', '', 'crossed_reads', 'EntriesOwn kinds crossed_reads_header []', 'has_entries', 'own_refuted crossed_reads_header'),
    ('records_untold', 'untold', 'crossed_reads', 'RecordsOwn kinds', 'some_unended', 'records_refuted'),
    ('commit_elsewhere', 'doctored 11', 'crossed_reads', 'RepliesHaveRecords kinds', 'some_record_off', 'replies_refuted'),
    ('record_precedes', 'replied_so commits_later', 'past_answers', 'RecordsInOrder kinds', 'some_order_off', 'order_refuted'),
    ('page_again', 'copied 1 7', 'two_updates', 'SerialFirst kinds', 'serial_off', 'serial_refuted'),
    ('marked_further', 'replied_so marked_more', 'checkpoints_and_trim', 'MarksRest kinds', 'some_mark_off', 'marks_refuted'),
    ('misnumbered_layout', 'misnumbered', 'unit_joins', 'LatestDecided kinds', 'latest_off', 'latest_refuted'),
    ('sealed_higher', 'higher', 'carried_by_scan', 'LayoutsFollow kinds', 'some_follows_off', 'follows_refuted'),
    ('read_elsewhere', 'reads_at 1 40', 'crossed_reads', 'ReadsOnPath kinds []', 'some_read_off', 'reads_refuted'),
]
# the same of some step of a run from a changed world
DOCTORED_STEPS = [
    ('unsure_noted_late', 'noted_late', 'unsure_then_fate', 'UnsureTrue', 'unsure_off', 'unsure_refuted'),
    ('none_noted_late', 'noted_late', 'refusals', 'NonesTrue', 'none_off', 'nones_refuted'),
    ('stuck_noted_late', 'noted_late', 'rescue_and_trim', 'StuckTrue', 'stuck_off', 'stuck_refuted'),
    ('walks_over_junk', 'emptied', 'two_keys', 'SyncsExact', 'exact_off', 'exact_refuted'),
    ('refused_and_played', 'refused_instead', 'crossed_reads', 'RefusalsKeep', 'keeps_off', 'keeps_refuted'),
]
VALUE_TESTS = 'store_after changed puts_of asks_in bound_in entries_fault replies_fault fault'
WORLD_TESTS = VALUE_TESTS + ' world_fails path_fails'
EVENTS = 'drain_ev tick_ev round_ev'
STEP_TESTS = EVENTS + ' step_fails run_fails'


def imports(runs):
    """The lines that name what the runs compute by, and the words that open it."""
    opened = rows.unfoldables()
    by, words, have = {}, [], {}
    for module, name in opened:
        short = name if name not in have else '%s_%s' % (module.split('.')[-1].lower(), name)
        have.setdefault(name, module)
        words.append(short)
        by.setdefault(module, []).append(name if short == name else '%s as %s' % (name, short))
    by.setdefault('tg_protocol.specs.Worlds', []).append('replay')
    print('use Rattle.std.proofs.Common.{◌≡◌, List, [], ◌∷◌, refl}')
    print('use Rattle.std.specs.Prelude.{true, false}')
    print('use Rattle.tg_model.specs.Stores.{store_after, changed}')
    print('use Rattle.tg_model.specs.Traces.{puts_of}')
    print('use Rattle.tg_model.specs.Verdicts.{asks_in, bound_in, entries_fault, replies_fault, fault}')
    for module in by:
        print('use Rattle.%s.{%s}' % (module, ', '.join(by[module])))
    print('use Rattle.tg_law_examples.proofs.SevenKinds.{kinds}')
    runs_of(runs)
    return ' '.join(words)


def lemma(name, statement, opened, tests=WORLD_TESTS + ' ' + STEP_TESTS):
    print()
    print('%s : %s' % (name, statement))
    print('unfolding %s %s' % (opened, tests))
    print('%s = refl' % name.split()[-1])


def claim(name, statement, proof):
    print()
    print('%s : %s' % (name, statement))
    print('%s = %s' % (name.split()[-1], proof))


def script(run):
    return '%s_header %s_script' % (run, run)


def world(run):
    return '(replay kinds %s)' % script(run)


def running():
    print('-- Worked runs, at each step and line of which the claims hold.')
    runs = sorted(set(HOLD) | set(WALKS) | set(PATHS) | set(SETTLINGS))
    opened = imports(runs)
    print('use Rattle.tg_law_instances.proofs.Tests.{world_fails, path_fails}')
    print('use Rattle.tg_law_instances.proofs.StepTests.{drain_ev, tick_ev, round_ev, step_fails, run_fails, failures, exact_at_end, settlings_of, log_stays}')
    print('use Rattle.std.specs.Prelude.{take}')
    print('use Rattle.tg_protocol.specs.Runs.{Moves}')
    print('use Rattle.tg_protocol.specs.Holding.{LogStays}')
    print('use Rattle.tg_protocol.specs.Headline.{Holds}')
    print('use Rattle.tg_protocol.specs.Playing.{ReadsOnPath}')
    print('use Rattle.tg_law_instances.proofs.Tests.{W}')
    print('use Rattle.tg_law_instances.proofs.Sound.{stays_sound}')
    print('use Rattle.tg_law_instances.proofs.HeadlineSound.{holds_sound}')
    print('use Rattle.tg_law_instances.proofs.LogSound.{LogHolds, log_sound, reads_sound}')
    for run in HOLD:
        lemma('pub holds_of_' + run, 'failures %s ≡ []' % script(run), opened)
        lemma('end_of_' + run, 'world_fails %s ≡ []' % world(run), opened)
        claim(run + '_holds', 'Holds kinds %s' % world(run), 'holds_sound %s end_of_%s' % (world(run), run))
        claim(run + '_log', 'LogHolds %s' % world(run), 'log_sound %s end_of_%s' % (world(run), run))
    for run in WALKS:
        lemma('walks_of_' + run, 'exact_at_end %s ≡ (%d, true)' % (script(run), WALKS[run]), opened)
    for run in PATHS:
        lemma('paths_of_' + run, 'path_fails %s ≡ []' % world(run), opened)
        claim(run + '_reads', '(ms : Moves kinds) → ReadsOnPath kinds ms %s' % world(run), 'reads_sound %s paths_of_%s' % (world(run), run))
    for run in SETTLINGS:
        lemma('settlings_of_' + run, 'settlings_of %s ≡ %s' % (script(run), SETTLINGS[run]), opened)


    print()
    print('-- Cells stay: of a run with a trim, before it and after it.')
    print()
    print('abbrev whole : W')
    print('whole = replay kinds %s' % script(PROVED))
    print()
    print('abbrev front : W')
    print('front = replay kinds %s_header (take 14 %s_script)' % (PROVED, PROVED))
    lemma('staying_test', 'log_stays front whole ≡ true', opened)
    claim('staying', 'LogStays kinds front whole', 'stays_sound front whole staying_test')


def from_start(run):
    return '%s_script (start kinds %s_header)' % (run, run)


def runs_of(runs):
    for file in sorted({RUNS[r] for r in runs}):
        names = [r for r in runs if RUNS[r] == file]
        print('use Rattle.tg_law_examples.proofs.%s.{%s}' % (file, ', '.join('%s_header, %s_script' % (r, r) for r in names)))


def stepping():
    print('-- Worked runs, of each step and each line of which what is claimed is proved.')
    print('use Rattle.tg_protocol.specs.Worlds.{start}')
    print('use Rattle.tg_law_examples.proofs.SevenKinds.{kinds}')
    runs_of(HOLD)
    print('use Rattle.tg_law_instances.proofs.RunSound.{LinesHold, run_sound}')
    print('use Rattle.tg_law_instances.proofs.Running.{%s}' % ', '.join('holds_of_' + run for run in HOLD))
    for run in HOLD:
        claim('pub %s_steps' % run, 'LinesHold %s' % from_start(run), 'run_sound 1 %s holds_of_%s' % (from_start(run), run))


def begun():
    print('-- Worked runs that reach their worlds, in which each entry was begun, each layout follows the one before, and settlings answer.')
    opened = imports(sorted(set(OWN) | set(FOLLOW) | set(SETTLINGS)))
    print('use Rattle.tg_base.specs.Clusters.{IsHeader}')
    print('use Rattle.tg_protocol.specs.Runs.{Reaches}')
    print('use Rattle.tg_protocol.specs.Following.{LayoutsFollow}')
    print('use Rattle.tg_protocol.specs.Holding.{EntriesOwn}')
    print('use Rattle.tg_law_instances.proofs.StepTests.{%s}' % EVENTS.replace(' ', ', '))
    print('use Rattle.tg_law_instances.proofs.FollowSound.{changes_in, all_follow, follow_sound}')
    print('use Rattle.tg_law_instances.proofs.Reaching.{script_moves, script_world, lawful_lines, reaches_sound, last_holds, drafts_in, are_own, own_sound}')
    print('use Rattle.tg_law_instances.proofs.Stepping.{%s}' % ', '.join(run + '_steps' for run in OWN))
    print('use Rattle.tg_protocol.specs.Headline.{Holds}')
    print('use Rattle.tg_law_instances.proofs.FinishSound.{settlings_finish, SettlingsHold, settlings_sound}')
    tests = '%s %s lawful_lines drafts_in settlings_finish' % (VALUE_TESTS, EVENTS)
    for run in OWN:
        lemma('lawful_' + run, 'lawful_lines %s_header %s ≡ true' % (run, from_start(run)), opened, tests)
        claim('header_of_' + run, 'IsHeader %s_header' % run, 'refl')
        came = '%s_header (script_moves %s) (script_world %s)' % (run, from_start(run), from_start(run))
        claim(run + '_reaches', 'Reaches kinds %s' % came, 'reaches_sound %s header_of_%s lawful_%s' % (script(run), run, run))
        claim(run + '_ends', 'Holds kinds (script_world %s)' % from_start(run), 'last_holds %s refl %s_steps' % (from_start(run), run))
        lemma('own_of_' + run, 'are_own (drafts_in %s) (script_world %s) ≡ true' % (from_start(run), from_start(run)), opened, tests)
        claim(run + '_own', 'EntriesOwn kinds %s' % came, 'own_sound %s own_of_%s' % (script(run), run))
    for run in FOLLOW:
        lemma('layouts_of_' + run, 'all_follow %s (changes_in %s_script) ≡ true' % (world(run), run), opened, tests)
        claim(run + '_follows', 'LayoutsFollow kinds %s' % world(run), 'follow_sound %s (changes_in %s_script) layouts_of_%s' % (world(run), run, run))
    for run in SETTLINGS:
        lemma('answers_of_' + run, 'settlings_finish %s ≡ true' % from_start(run), opened, tests)
        claim(run + '_settles', 'SettlingsHold %s' % from_start(run), 'settlings_sound %s answers_of_%s' % (from_start(run), run))


def doctored():
    print('-- Changed worlds, and steps from changed worlds, of which a claim is refuted.')
    opened = imports(sorted({d[2] for d in DOCTORED} | {d[2] for d in DOCTORED_STEPS} | {'page_carried_down'}))
    print('use Rattle.tg_model.specs.declared.command.Command.TheVariants as cmd')
    print('use Rattle.tg_model.specs.declared.command.Event.TheVariants.{Command as Commands, Lose}')
    print('use Rattle.tg_model.specs.declared.refusal.Refusal.TheVariants as cause')
    print('use Rattle.tg_protocol.specs.Chosen.{LatestDecided}')
    print('use Rattle.tg_protocol.specs.Following.{LayoutsFollow}')
    print('use Rattle.tg_protocol.specs.Holding.{EntriesOwn, RecordsOwn, RepliesHaveRecords, RecordsInOrder, SerialFirst, MarksRest}')
    print('use Rattle.tg_protocol.specs.Playing.{SyncsExact, ReadsOnPath, PlaysOn}')
    print('use Rattle.tg_protocol.specs.Causes.{RefusalsTrue, CausesRefuse, UnsureTrue, NonesTrue, RefusalsKeep}')
    print('use Rattle.tg_protocol.specs.Stuck.{StuckTrue}')
    print('use Rattle.std.specs.Prelude.{Some}')
    print('use Rattle.tg_protocol.specs.Worlds.{client}')
    print('use Rattle.tg_protocol.specs.Finishing.{CommandFinishes, ReconfFinishes}')
    print('use Rattle.tg_protocol.specs.ClientSteps.{new_work}')
    print('use Rattle.tg_law_examples.proofs.SevenKinds as kind')
    print('use Rattle.tg_law_examples.proofs.Shown.{obj}')
    print('use Rattle.tg_law_instances.proofs.StepTests.{%s}' % EVENTS.replace(' ', ', '))
    print('use Rattle.tg_law_instances.proofs.Changes.{doctored, copied, untold, higher, misnumbered, reads as reads_at, with_client, knows_log, knows_more, knows_nothing, emptied, replied_so, commits_later, marked_more, waits_forever, same_again, refused_instead, asked_before}')
    print('use Rattle.tg_law_instances.proofs.LogRefuted.{%s}' % ', '.join(sorted({w for d in DOCTORED for w in (d[4], d[5].split()[0])})))
    print('use Rattle.tg_law_instances.proofs.StepRefuted.{OfRun, some_of_run, of_run_found, noted_late, %s, keeps_some, plays_refuted, stands_off, stands_refuted, accepts_it, refuse_refuted, refuses_it, refusals_refuted}'
          % ', '.join(sorted({w for d in DOCTORED_STEPS for w in (d[4], d[5])})))
    print('use Rattle.tg_law_instances.proofs.FinishRefuted.{hangs, commands_refuted, hangs_changing, reconfs_refuted}')
    tests = '%s %s some_of_run' % (VALUE_TESTS, EVENTS)

    def refuted(name, test, what, by):
        lemma(name + '_off', '%s ≡ true' % test, opened, tests)
        claim(name + '_isnt', '%s → ⊥' % what, '%s %s_off' % (by, name))

    for name, change, run, what, test, by in DOCTORED:
        w = '(%s %s)' % (change, world(run)) if change else world(run)
        refuted(name, '%s %s' % (test, w), '%s %s' % (what, w), '%s %s' % (by, w))
    for name, change, run, what, test, by in DOCTORED_STEPS:
        fails = '(λ w e. %s (%s w) e)' % (test, change)
        isnt = '(λ w e. %s kinds (%s w) e → ⊥)' % (what, change)
        lemma(name + '_off', 'some_of_run %s %s ≡ true' % (fails, from_start(run)), opened, tests)
        claim(name + '_isnt', 'OfRun %s %s' % (isnt, from_start(run)), 'of_run_found %s %s (λ w e h. %s (%s w) e h) %s %s_off' % (fails, isnt, by, change, from_start(run), name))
    kept = '(with_client (knows_log %s) 1 %s)' % (world('page_carried_down'), world('page_carried_down'))
    refuted('all_pages_kept', 'keeps_some (happens kinds %s (Lose 0)) 1' % kept, 'PlaysOn kinds %s (Lose 0)' % kept, 'plays_refuted %s (Lose 0) 1' % kept)
    asked = '(with_client asked_before 0 (start kinds two_updates_header)) (Commands 0 (cmd.Ask (obj 16777216) kind.Value))'
    refuted('view_left_behind', 'stands_off ' + asked, 'PlaysOn kinds ' + asked, 'stands_refuted ' + asked)
    more = '(with_client knows_more 0 (start kinds two_updates_header)) 0 (cmd.Host (obj 16777300)) (cause.NotRegistered (obj 16777300))'
    refuted('unlisted_hosted', 'accepts_it ' + more, 'CausesRefuse kinds (with_client knows_more 0 (start kinds two_updates_header)) (Commands 0 (cmd.Host (obj 16777300)))', 'refuse_refuted ' + more)
    for name, command, what, by, test in [
            ('nobody_asked', '(cmd.Fate 0)', 'CommandFinishes', 'commands_refuted %s 0 0', 'hangs %s 0'),
            ('nobody_sealed', '(cmd.Reconf same_again)', 'ReconfFinishes', 'reconfs_refuted %s 0 same_again', 'hangs_changing %s 0 same_again')]:
        hung = '(with_client (waits_forever %s) 0 (start kinds two_updates_header))' % command
        lemma(name + '_waits', '(client kinds %s 0).work ≡ Some (new_work kinds %s)' % (hung, command), opened, tests)
        lemma(name + '_off', '%s ≡ true' % (test % hung), opened, tests)
        claim(name + '_isnt', '%s kinds %s → ⊥' % (what, hung), '%s (new_work kinds %s) %s_waits refl %s_off' % (by % hung, command, name, name))
    none = '(with_client knows_nothing 0 (start kinds two_updates_header)) 0 (obj 16777216)'
    refuted('listed_refused', 'refuses_it ' + none, 'RefusalsTrue kinds (with_client knows_nothing 0 (start kinds two_updates_header)) (Commands 0 (cmd.Host (obj 16777216)))', 'refusals_refuted ' + none)


def listed(words):
    return ' ∷ '.join(words.split() + ['[]'])


# a run whose client asks again after two further updates, so that it reads on from where its view stands
FURTHER = """
abbrev plays_on_further_header : Header
plays_on_further_header = view_plays_on_header

abbrev plays_on_further_script : List (Line kinds)
plays_on_further_script = view_plays_on_script ++
    Happens (Commands 1 cmd.End) ∷
    Update 0 (obj 16777216) (kind.Add (pos 1)) ∷
    Settle ∷
    Update 0 (obj 16777216) (kind.Add (pos 1)) ∷
    Settle ∷
    Happens (Commands 1 cmd.Begin) ∷
    Happens (Commands 1 (cmd.Ask (obj 16777216) kind.Value)) ∷
    Settle ∷ []"""


def changed():
    print('-- Changed worlds, and changed steps, of worked runs, and the claims that fail of them.')
    runs = sorted(({w[2] for w in WORLDS} | {s[3] for s in STEPS} | {'crossed_reads', 'view_plays_on'}) - {'plays_on_further'})
    opened = imports(runs)
    print('use Rattle.tg_law_instances.proofs.Tests as claim')
    print('use Rattle.tg_law_instances.proofs.Tests.{world_fails, path_fails}')
    print('use Rattle.tg_law_instances.proofs.StepTests.{drain_ev, tick_ev, round_ev, step_fails, run_fails, changed_so, replied, ends_walks, sends_reads, log_stays}')
    print('use Rattle.tg_law_instances.proofs.Changes.{%s}' % ', '.join(
        ['doctored', 'copied', 'unheard', 'untold', 'trimmed_more as trims_more', 'unarchived', 'played_more as plays_more', 'replaced', 'two_layouts',
         'higher', 'reads as reads_at', 'viewless', 'closed', 'with_client', 'knows_log', 'reads_low', 'emptied', 'replied_so', 'accepted', 'none_there as says_none', 'last_wrong', 'named_late', 'untrimmed', 'undecided', 'marked_less', 'commits_later']))
    print('use Rattle.std.specs.Prelude.{◌++◌, pos}')
    print('use Rattle.tg_base.specs.Clusters.{Header}')
    print('use Rattle.tg_model.specs.declared.command.Command.TheVariants as cmd')
    print('use Rattle.tg_model.specs.declared.command.Event.TheVariants.{Command as Commands}')
    print('use Rattle.tg_protocol.specs.Worlds.{Line, Happens, Update, Settle}')
    print('use Rattle.tg_law_examples.proofs.SevenKinds as kind')
    print('use Rattle.tg_law_examples.proofs.Shown.{obj}')
    print('use Rattle.tg_protocol.specs.Headline.{Holds}')
    print('use Rattle.tg_protocol.specs.Alike.{Alike, PastTrue, RescueTrue, CheckpointsTrue}')
    print('use Rattle.tg_protocol.specs.Chosen.{OneLayout}')
    print('use Rattle.tg_protocol.specs.Holding.{EntriesLinked, FloorsStay, TrimsSpare, LogStays}')
    print('use Rattle.tg_protocol.specs.Causes.{DirectoryTrue, AbortsLeast}')
    print('use Rattle.tg_law_instances.proofs.Readings.{es_of}')
    print('use Rattle.tg_law_instances.proofs.Tests.{linked, layouts, one_layout}')
    print('use Rattle.tg_law_instances.proofs.Refuted.{headline_refuted, linked_refuted, one_layout_refuted, some_cell_lost, stays_refuted, %s}'
          % ', '.join(sorted({x for r in REFUTED.values() for x in r[1:]})))
    print(FURTHER)
    again = {'trimmed_more': 'trims_more', 'played_more': 'plays_more', 'none_there': 'says_none'}
    for name, change, run, fail in WORLDS:
        words = ' '.join(again.get(w, w) for w in change.split())
        names = listed(fail and ' '.join('claim.' + f for f in fail.split()))
        changed_world = '(%s %s)' % (words, world(run))
        lemma(name, 'world_fails %s ≡ %s' % (changed_world, names), opened)
        if 'IsLegal' in fail:
            claim(name + '_refutes', 'Holds kinds %s → ⊥' % changed_world, 'headline_refuted %s (%s) %s refl refl' % (changed_world, names, name))
        if name in REFUTED:
            what, test, by = REFUTED[name]
            lemma(name + '_off', '%s %s ≡ true' % (test, changed_world), opened)
            claim(name + '_isnt', '%s %s → ⊥' % (what, changed_world), '%s %s %s_off' % (by, changed_world, name))
    joined = '(unheard %s)' % world('unit_joins')
    lemma('unheard_join_off', 'linked %s (es_of %s) ≡ false' % (joined, joined), opened)
    claim('unheard_join_isnt', 'EntriesLinked kinds %s → ⊥' % joined, 'linked_refuted %s unheard_join_off' % joined)
    twice = '(two_layouts %s)' % world('unit_joins')
    lemma('another_layout_off', 'one_layout (layouts %s) ≡ false' % twice, opened)
    claim('another_layout_isnt', 'OneLayout kinds %s → ⊥' % twice, 'one_layout_refuted %s another_layout_off' % twice)
    lost = '%s (emptied %s)' % (world('crossed_reads'), world('crossed_reads'))
    lemma('cells_lost_off', 'some_cell_lost %s ≡ true' % lost, opened)
    claim('cells_lost_isnt', 'LogStays kinds %s → ⊥' % lost, 'stays_refuted %s cells_lost_off' % lost)
    lemma('read_off_path', 'path_fails (reads_at 1 40 %s) ≡ claim.ReadsOnPath ∷ []' % world('crossed_reads'), opened)
    lemma('cells_lost', 'log_stays %s (emptied %s) ≡ false' % (world('crossed_reads'), world('crossed_reads')), opened)
    for name, which, change, run, fail in STEPS:
        steps = ['(%s)' % listed(' '.join('claim.' + f for f in step.split())) for step in fail.split(';') if step]
        lemma(name, 'changed_so %s %s %s ≡ %s' % (which, change.replace('none_there', 'says_none'), script(run), ' ∷ '.join(steps + ['[]'])), opened)


if __name__ == '__main__':
    {'running': running, 'stepping': stepping, 'begun': begun, 'changed': changed, 'doctored': doctored}[sys.argv[1]]()
