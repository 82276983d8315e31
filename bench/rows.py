"""Writes the worked runs and the judged texts as lemmas of tg_law_examples.

python3 bench/rows.py FOLDER NAME=LABEL.. > crates/tg_law_examples/proofs/FILE.antt

FOLDER has NAME.script and NAME.transcript; LABEL is the lemma's name, or `run_NAME` where none is given. Each lemma says
that the script's events give the transcript's marks and history, and is proved by computing.

python3 bench/rows.py judged > crates/tg_law_examples/proofs/Judged.antt

For each bench/judged/NAME.transcript a lemma says that its first fault is the one of NAME.verdict.
"""
import os
import re
import sys

KINDS = {'dir': 0, 'ctr': 1, 'reg': 2, 'map': 3, 'list': 4, 'tree': 5, 'set': 6}
# the crates whose definitions the runs open
CRATES = ('tg_base', 'tg_codec', 'tg_entry', 'tg_protocol')


def oid(word):
    kind, index = re.match(r'([a-z]+)(\d+)$', word).groups()
    return 'obj %d' % (KINDS[kind] * 2 ** 24 + int(index))


def listed(items, paren=False):
    text = ' ∷ '.join(list(items) + ['[]'])
    return '(%s)' % text if paren else text


def text(word):
    return listed([str(b) for b in word.encode()], True)


def signed(word):
    return '(negsuc %d)' % (-int(word) - 1) if word[0] == '-' else '(pos %s)' % word


# each word of an op or an ask, with its constructor and its fields
OPS = {'add': ('Add', 'z'), 'write': ('Write', 't'), 'set': ('Set', 'tt'), 'unset': ('Unset', 't'), 'push_front': ('PushFront', 't'),
       'push_back': ('PushBack', 't'), 'insert': ('InsertAt', 'nt'), 'remove': ('RemoveAt', 'n'), 'pop_front': ('PopFront', ''),
       'pop_back': ('PopBack', ''), 'create': ('Create', 'tt'), 'store': ('Store', 'tt'), 'delete': ('Delete', 't'),
       'include': ('Include', 'n'), 'exclude': ('Exclude', 'n'), 'name': ('Name', 'to'), 'mark': ('Mark', 'on')}
# and the form of its answer
ASKS = {'find': ('Find', 't', 'o'), 'marks': ('Marks', '', 'm'), 'floor': ('Floor', '', 'n'), 'value': ('Value', '', 'z'),
        'text': ('TextOf', '', 's'), 'get': ('Get', 't', 's'), 'size': ('Size', '', 'n'), 'keys': ('Keys', '', 'l'),
        'at': ('ItemAt', 'n', 's'), 'len': ('Len', '', 'n'), 'items': ('Items', '', 'l'), 'data': ('DataOf', 't', 's'),
        'has': ('HasPath', 't', 'y'), 'children': ('Children', 't', 'l'), 'member': ('Member', 'n', 'y'),
        'count': ('Count', 'nn', 'n'), 'between': ('Between', 'nn', 'r')}


def field(form, word):
    return {'t': text, 'n': str, 'z': signed, 'o': lambda w: '(%s)' % oid(w)}[form](word)


def made(form, fields, words):
    return '(kind.%s)' % ' '.join([form] + [field(f, w) for f, w in zip(fields, words)])


def op(words):
    return made(*OPS[words[0]], words[1:])


def ask(words):
    return made(*ASKS[words[0]][:2], words[1:])


def answer(asked, words):
    form = ASKS[asked[0]][2]
    if form == 'n':
        return '(kind.Number %s)' % words[0]
    if form == 'z':
        return '(kind.Signed %s)' % signed(words[0])
    if form == 'y':
        return '(kind.Flag %s)' % {'yes': 'true', 'no': 'false'}[words[0]]
    if form in 'os':
        name = {'o': 'Object', 's': 'Words'}[form]
        if words[0] == 'none':
            return '(kind.%s None)' % name
        return '(kind.%s (Some %s))' % (name, field({'o': 'o', 's': 't'}[form], words[1]))
    items = [w for w in ' '.join(words).strip('[]').split(' ') if w]
    if form == 'l':
        return '(kind.Texts %s)' % listed([text(w) for w in items], True)
    if form == 'r':
        return '(kind.Numbers %s)' % listed(items, True)
    pairs = [w.split('=') for w in items]
    return '(kind.Marked %s)' % listed(['(%s, %s)' % (oid(o), n) for o, n in pairs], True)


def node(word):
    return '(%s_id %s)' % ({'u': 'unit', 'l': 'layout', 's': 'seqr', 'c': 'client'}[word[0]], word[1:])


def chains(word):
    return listed([listed([u[1:] for u in c.split(',')], True) for c in word.split('/')], True)


def change(words):
    drop, opened, join = '[]', '[]', 'None'
    rest = words[1:]
    while rest:
        if rest[0] == 'drop':
            drop, rest = listed([u[1:] for u in rest[1].split(',')]), rest[2:]
        elif rest[0] == 'open':
            opened, rest = chains(rest[1])[1:-1], rest[2:]
        else:
            join = 'Some (record { unit = %s; range = %s; stripe = %s })' % (rest[1][1:], rest[2], rest[3])
            rest = rest[4:]
    return '(record { seq = %s; drop = %s; opened = %s; join = %s })' % (words[0][1:], drop, opened, join)


def command(words):
    verb, rest = words[0], words[1:]
    plain = {'begin': 'Begin', 'end': 'End', 'drop': 'Drop', 'trim': 'Trim'}
    if verb in plain:
        return 'cmd.' + plain[verb]
    if verb in ('host', 'checkpoint'):
        return '(cmd.%s (%s))' % (verb.capitalize(), oid(rest[0]))
    if verb == 'put':
        return '(cmd.Put (%s) %s)' % (oid(rest[0]), op(rest[1:]))
    if verb == 'ask':
        return '(cmd.Ask (%s) %s)' % (oid(rest[0]), ask(rest[1:]))
    if verb in ('fate', 'decide', 'rescue'):
        return '(cmd.%s %s)' % (verb.capitalize(), rest[0])
    if verb == 'forget':
        return '(cmd.Forget (%s) %s)' % (oid(rest[0]), rest[1])
    if verb == 'reconf':
        return '(cmd.Reconf %s)' % change(rest)
    if verb == 'copy':
        return '(cmd.Copy %s %s %s)' % (rest[0][1:], rest[1], rest[2])
    if verb == 'ask-at':
        return '(cmd.AskAt %s (%s) %s)' % (rest[0], oid(rest[1]), ask(rest[2:]))
    raise ValueError(words)


def line(words):
    if words[0] in ('drain', 'settle'):
        return words[0].capitalize()
    if words[0] in ('deliver', 'lose'):
        return 'Happens (%s %s)' % (words[0].capitalize(), words[1])
    if words[0] in ('tick', 'stop'):
        return 'Happens (%s %s)' % (words[0].capitalize(), node(words[1]))
    client = words[0][1:]
    if words[1] == 'update':
        return 'Update %s (%s) %s' % (client, oid(words[2]), op(words[3:]))
    return 'Happens (Commands %s %s)' % (client, command(words[1:]))


def part(words):
    if words[0] == 'all':
        return 'All', words[1:]
    return {'key': '(Text %s)' % text(words[1]), 'num': '(Num %s)' % words[1]}[words[0]], words[2:]


def refusal(words):
    name = ''.join(w.capitalize() for w in words[0].split('-'))
    rest = words[1:]
    if name == 'Busy':
        rest = ['word.' + ''.join(w.capitalize() for w in rest[0].split('-'))]
    elif name == 'TooMany':
        rest = ['many.' + rest[0].capitalize()]
    else:
        rest = ['(%s)' % oid(w) if re.match(r'(dir|ctr|reg|map|list|tree|set)\d+$', w) else w.lstrip('u') for w in rest]
    return '(told.Refused %s)' % (('(cause.%s)' if rest else 'cause.%s') % ' '.join([name] + rest))


def yes(word):
    return {'yes': '(Some true)', 'no': '(Some false)', 'none': 'None'}[word]


def what(words):
    verb, rest = words[0], words[1:]
    plain = {'begin': 'Begin', 'end': 'End', 'dropped': 'Dropped'}
    if verb in plain:
        return 'told.' + plain[verb]
    if verb == 'put':
        return '(told.Put (%s) %s)' % (oid(rest[0]), op(rest[1:]))
    if verb in ('asked', 'past'):
        at = rest.index('=') - 2
        asked = rest[1:at]
        return '(told.%s (%s) %s %s %s)' % (verb.capitalize(), oid(rest[0]), ask(asked), rest[at + 1], answer(asked, rest[at + 3:]))
    if verb in ('committed', 'trimmed', 'installed'):
        return '(told.%s %s)' % (verb.capitalize(), rest[0])
    if verb == 'unsure':
        return '(told.Unsure %s %s)' % tuple(rest)
    if verb == 'aborted':
        key, tail = part(rest[2:])
        return '(told.Aborted %s (%s) %s %s %s)' % (rest[0], oid(rest[1]), key, tail[1], tail[3])
    if verb == 'hosted':
        return '(told.Hosted (%s))' % oid(rest[0])
    if verb in ('fate', 'decided', 'rescued'):
        return '(told.%s %s %s)' % (verb.capitalize(), rest[0], yes(rest[1]))
    if verb == 'saved':
        return '(told.Saved (%s) %s %s)' % (oid(rest[0]), rest[1], rest[2])
    if verb == 'marked':
        return '(told.Marked (%s) %s)' % (oid(rest[0]), rest[1])
    if verb == 'copied':
        return '(told.Copied %s %s %s)' % (rest[0][1:], rest[1], rest[2])
    if verb == 'refused':
        return refusal(rest)
    raise ValueError(words)


def mark(words):
    return 'mark %s %s %s %s' % (words[0], words[1][1:], words[2], what(words[3:]))


def done(words):
    writes = ' '.join(words[3:]).split(' ; ')
    pairs = ['(%s, %s)' % (oid(w.split()[0]), op(w.split()[1:])) for w in writes]
    return 'done %s %s %s %s' % (words[0], words[1][1:], words[2], listed(pairs, True))


def header(lines):
    numbers = lines[0].split()[1:]
    fields = dict(zip(numbers[::2], numbers[1::2]))
    objects = listed([oid(w) for w in lines[2].split()[1:]])
    return 'record { %s; chains = %s; objects = %s }' % (
        '; '.join('%s = %s' % (k, fields[k]) for k in ('units', 'layouts', 'seqs', 'clients', 'limit')), chains(lines[1].split()[1])[1:-1], objects)


def unfoldables():
    """Each definition that is opened only where it is named, with its module."""
    found = []
    for crate in CRATES:
        specs = os.path.join('crates', crate, 'specs')
        for name in re.findall(r'pub mod (\w+)', open(os.path.join(specs, 'Lib.antt')).read()):
            body = open(os.path.join(specs, name + '.antt')).read()
            found += [('%s.specs.%s' % (crate, name), d) for d in re.findall(r'^ *unfoldable pub (\S+) :', body, re.M)]
    return found


def judged():
    """The verdicts of texts."""
    folder = os.path.join('bench', 'judged')
    print('-- Judged texts: the first line at which a clause of a legal run fails, and the clause, or none.')
    print('use Rattle.std.proofs.Common.{◌≡◌, ℕ, List, [], ◌∷◌, refl, Some, None}')
    print('use Rattle.std.specs.Prelude.{pos, negsuc}')
    print('use Rattle.tg_base.specs.declared.fault.Clause.TheVariants.{A, B, C, D, E}')
    print('use Rattle.tg_base.specs.declared.ids.Oid.{Oid}')
    print('use Rattle.tg_base.specs.declared.marks.Part.TheVariants.{All, Text, Num}')
    print('use Rattle.tg_model.specs.declared.refusal.Refusal.TheVariants as cause')
    print('use Rattle.tg_model.specs.declared.trace.What.TheVariants as told')
    print('use Rattle.tg_model.specs.Stores.{History, store_after, changed}')
    print('use Rattle.tg_model.specs.Traces.{Trace, puts_of}')
    print('use Rattle.tg_model.specs.Verdicts.{asks_in, bound_in, entries_fault, replies_fault, fault}')
    print('use Rattle.tg_protocol.specs.Words.{bytes_eq}')
    print('use Rattle.tg_law_examples.proofs.Sameness.{same}')
    print('use Rattle.tg_law_examples.proofs.SevenKinds.{kinds}')
    print('use Rattle.tg_law_examples.proofs.SevenKinds as kind')
    print('use Rattle.tg_law_examples.proofs.Shown.{obj, mark, done}')
    for file in sorted(os.listdir(folder)):
        name, _, ending = file.partition('.')
        if ending != 'transcript':
            continue
        text = open(os.path.join(folder, file)).read().splitlines()
        verdict = open(os.path.join(folder, name + '.verdict')).read().split()
        split = next(i for i, l in enumerate(text) if l.startswith('history '))
        row = name.replace('-', '_')
        answer = 'None' if verdict[0] == 'legal' else 'Some (record { line = %s; clause = %s })' % (verdict[1], verdict[2].upper())
        print()
        print('abbrev pub %s_objects : List Oid' % row)
        print('%s_objects = %s' % (row, listed([oid(w) for w in text[0].split()[1:]])))
        print()
        print('abbrev pub %s_trace : Trace kinds' % row)
        print('%s_trace =%s' % (row, ' ∷'.join(['\n    ' + mark(l.split()) for l in text[1:split]] + [' []'])))
        print()
        print('abbrev pub %s_history : History kinds' % row)
        print('%s_history =%s' % (row, ' ∷'.join(['\n    ' + done(l.split()) for l in text[split + 1:]] + [' []'])))
        print()
        print('%s : fault kinds same %s_objects %s_history %s_trace ≡ %s' % (row, row, row, row, answer))
        print('unfolding store_after changed puts_of asks_in bound_in entries_fault replies_fault fault bytes_eq')
        print('%s = refl' % row)


def main():
    folder, names = sys.argv[1], sys.argv[2:]
    opened = unfoldables()
    print('-- Worked runs: the marks and the history that each gives.')
    print('use Rattle.std.proofs.Common.{◌≡◌, ℕ, List, [], ◌∷◌, refl, Some, None}')
    print('use Rattle.std.specs.Prelude.{true, false, pos, negsuc}')
    print('use Rattle.tg_base.specs.declared.fault.Many.TheVariants as many')
    print('use Rattle.tg_base.specs.declared.marks.Part.TheVariants.{All, Text, Num}')
    print('use Rattle.tg_base.specs.Clusters.{Header}')
    print('use Rattle.tg_model.specs.declared.command.Command.TheVariants as cmd')
    print('use Rattle.tg_model.specs.declared.command.Event.TheVariants.{Command as Commands, Deliver, Lose, Tick, Stop}')
    print('use Rattle.tg_model.specs.declared.command.Word.TheVariants as word')
    print('use Rattle.tg_model.specs.declared.refusal.Refusal.TheVariants as cause')
    print('use Rattle.tg_model.specs.declared.trace.What.TheVariants as told')
    by = {}
    for module, name in opened:
        by.setdefault(module, []).append(name)
    by.setdefault('tg_protocol.specs.Words', []).extend(['unit_id', 'layout_id', 'seqr_id', 'client_id'])
    by.setdefault('tg_protocol.specs.Worlds', []).extend(['Line', 'Happens', 'Update', 'Drain', 'Settle', 'replay'])
    seen = {}
    for module in by:
        fresh = []
        for n in by[module]:
            if n in seen:
                fresh.append('%s as %s_%s' % (n, module.split('.')[-1].lower(), n))
            else:
                fresh.append(n)
            seen.setdefault(n, module)
        print('use Rattle.%s.{%s}' % (module, ', '.join(fresh)))
    print('use Rattle.tg_law_examples.proofs.SevenKinds.{kinds}')
    print('use Rattle.tg_law_examples.proofs.SevenKinds as kind')
    print('use Rattle.tg_law_examples.proofs.Shown.{Shown, shown, obj, mark, done}')
    words, have = [], set()
    for module, n in opened:
        words.append(n if n not in have else '%s_%s' % (module.split('.')[-1].lower(), n))
        have.add(n)
    for name in names:
        name, _, label = name.partition('=')
        script = open(os.path.join(folder, name + '.script')).read().splitlines()
        transcript = open(os.path.join(folder, name + '.transcript')).read().splitlines()
        split = next(i for i, l in enumerate(transcript) if l.startswith('history '))
        row = label or 'run_' + name.replace('-', '_')
        print()
        print('abbrev pub %s_header : Header' % row)
        print('%s_header = %s' % (row, header(script[:3])))
        print()
        print('abbrev pub %s_script : List (Line kinds)' % row)
        print('%s_script = %s' % (row, listed(['\n    ' + line(l.split()) for l in script[3:]])))
        print()
        print('%s : shown (replay kinds %s_header %s_script) ≡ record {' % (row, row, row))
        print('  marks = %s;' % listed(['\n    ' + mark(l.split()) for l in transcript[1:split]]))
        print('  dones = %s;' % listed(['\n    ' + done(l.split()) for l in transcript[split + 1:]]))
        print('}')
        print('unfolding ' + ' '.join(words))
        print('%s = refl' % row)


if __name__ == '__main__':
    if sys.argv[1] == 'judged':
        judged()
    else:
        main()
