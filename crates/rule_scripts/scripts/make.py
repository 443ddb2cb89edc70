#!/usr/bin/env python3
"""Makes specs/*.antt and proofs/*.antt from scripts/*.txt: each script, with what each of its lines answers, as a statement and its
proof by computation, and all of a file as one statement, which is the contract of a function of src/scripts.rt. The gate plays the
same scripts by the programs (gate/rules.py, gate/machines.py).

A script begins with '## NAME' and words OPTION=VALUE (pages, device, next-id, next-category; played=no for one that no program
plays so: a machine boots with no such limits, a worker is no thread, or a word has no spelling). Each line is
'WORKER: CALL => REPLY' or 'NAME = WORKER: CALL => REPLY' in the words of scripts and replies; data may be NxBB, N bytes BB.
'--' parts phases and says nothing here. A line '! ids A B ..', '! uses ID PAGES ..' or '! next ID' tells the end: the recorded ids,
the uses of some, the next id.

The repository doesn't have these files: ./test and ./prove make them, and before rt itself is called there, scripts/make.py has to be.
"""
import re
import sys
import textwrap
from pathlib import Path

REFUSALS = (
    'Halted NoAccess NoEntry WrongType CannotObserve CannotModify BadLabel LabelRange ClearanceRange LabelFull AvoidType '
    'NoQuota FixedQuota NotFixed AlreadyLinked RootKept Immutable Bounds NotMapped RightsDenied Overlap GateDenied DeviceFull '
    'DeviceEmpty Spent'
).split()
KINDS = {'c': 'Container', 's': 'Segment', 'a': 'AddressSpace', 't': 'Thread', 'g': 'Gate', 'd': 'Device'}
LEVELS = {'*': 'Star', '0': 'L0', '1': 'L1', '2': 'L2', '3': 'L3'}
CREATES = {'container_create', 'segment_create', 'segment_copy', 'as_create', 'thread_create', 'gate_create'}


def listed(items):
    return '(' + ''.join(f'{item} ∷ ' for item in items) + '[])'


class Script:
    def __init__(self, name, options):
        self.name = name
        self.is_played = options.pop('played', 'yes') == 'yes'
        self.options = options
        self.spoken = []
        self.names = {'root': 1, 'boot': 2, 'dev': 3}
        self.limits = (
            f"(limits {options.get('pages', 64)} {LEVELS[options.get('device', '1')]} {options.get('next-id', 4)} "
            f"{options.get('next-category', 1)})"
        )
        self.next_id = int(options.get('next-id', 4))
        self.next_category = int(options.get('next-category', 1))
        self.lines, self.replies, self.ends = [], [], []

    def number(self, word):
        if word.startswith('#'):
            return word[1:]
        if word not in self.names:
            sys.exit(f'{self.name}: unknown name {word}')
        return str(self.names[word])

    def pairs(self, word):
        *pairs, default = word.strip('{}').split(',')
        pairs = [pair.rsplit(':', 1) for pair in pairs]
        return LEVELS[default], listed(f'at {self.number(c)} {LEVELS[l]}' for c, l in pairs)

    def raw(self, word):
        return '(raw {} {})'.format(*self.pairs(word))

    def label(self, word):
        return '(label {} {})'.format(*self.pairs(word))

    def entry(self, container, thing):
        return f'(entry {self.number(container)} {self.number(thing)})'

    def data(self, word):
        if word == '-':
            return '[]'
        many = re.fullmatch(r'(\d+)x([0-9a-f]{2})', word)
        return f'(replicate {many[1]} {int(many[2], 16)})' if many else listed(bytes.fromhex(word))

    def mapping(self, words):
        page, container, thing, first, count, rights = words
        reads, writes = (str(letter in rights).lower() for letter in 'rw')
        return f'(mapping {page} {self.entry(container, thing)} {first} {count} {reads} {writes})'

    def call(self, verb, a):
        number, raw, entry = self.number, self.raw, self.entry
        if verb == 'cat_create':
            return 'W', 'call.CatCreate'
        if verb == 'self_set_label':
            return 'W', f'call.SelfSetLabel {raw(a[0])}'
        if verb == 'self_set_clearance':
            return 'W', f'call.SelfSetClearance {raw(a[0])}'
        if verb == 'self_set_as':
            return 'W', f'call.SelfSetAs {entry(a[0], a[1])}'
        if verb == 'container_create':
            avoided = listed(kind for letter, kind in KINDS.items() if letter in a[3])
            return 'W', f'container_create {number(a[0])} {raw(a[1])} {a[2]} (kinds {avoided})'
        if verb == 'segment_create':
            return 'W', f'segment_create {number(a[0])} {raw(a[1])} {a[2]} {a[3]}'
        if verb == 'segment_copy':
            return 'W', f'segment_copy {number(a[0])} {raw(a[1])} {a[2]} {entry(a[3], a[4])}'
        if verb == 'as_create':
            return 'W', f'as_create {number(a[0])} {raw(a[1])} {a[2]}'
        if verb == 'thread_create':
            return 'W', f'thread_create {number(a[0])} {raw(a[1])} {a[2]} {raw(a[3])} {a[4]}'
        if verb == 'gate_create':
            head = f'gate_create {number(a[0])} {raw(a[1])} {a[2]} {raw(a[3])}'
            return 'W', f'{head} {entry(a[4], a[5])} {a[6]} {a[7]}'
        if verb == 'link':
            return 'W', f'call.Link {number(a[0])} {entry(a[1], a[2])}'
        if verb == 'quota_move':
            change = f'(negsuc {-int(a[2]) - 1})' if a[2].startswith('-') else f'(pos {a[2]})'
            return 'W', f'call.QuotaMove {entry(a[0], a[1])} {change}'
        if verb in ('unref', 'set_fixed', 'set_immutable', 'dev_recv'):
            name = {'unref': 'Unref', 'set_fixed': 'SetFixed', 'set_immutable': 'SetImmutable', 'dev_recv': 'DevRecv'}[verb]
            return 'W', f'call.{name} {entry(a[0], a[1])}'
        if verb in ('meta_set', 'dev_send'):
            name = {'meta_set': 'MetaSet', 'dev_send': 'DevSend'}[verb]
            return 'W', f'call.{name} {entry(a[0], a[1])} {self.data(a[2])}'
        if verb == 'segment_resize':
            return 'W', f'call.SegmentResize {entry(a[0], a[1])} {a[2]}'
        if verb == 'segment_write':
            return 'W', f'call.SegmentWrite {entry(a[0], a[1])} {a[2]} {self.data(a[3])}'
        if verb == 'as_map':
            return 'W', f'call.AsMap {entry(a[0], a[1])} {a[2]} {self.mapping(a[3:])}'
        if verb == 'as_unmap':
            return 'W', f'call.AsUnmap {entry(a[0], a[1])} {a[2]}'
        if verb == 'store':
            return 'W', f'call.Store {a[0]} {self.data(a[1])}'
        if verb == 'gate_enter':
            return 'W', f'call.GateEnter {entry(a[0], a[1])} {raw(a[2])} {raw(a[3])} {raw(a[4])}'
        if verb == 'self_get':
            return 'R', 'query.SelfGet'
        if verb in ('obj_label', 'obj_quota', 'segment_len', 'meta_get'):
            name = {'obj_label': 'ObjLabel', 'obj_quota': 'ObjQuota', 'segment_len': 'SegmentLen', 'meta_get': 'MetaGet'}[verb]
            return 'R', f'query.{name} {entry(a[0], a[1])}'
        if verb == 'container_list':
            return 'R', f'query.ContainerList {number(a[0])} {a[1]}'
        if verb == 'container_parent':
            return 'R', f'query.ContainerParent {number(a[0])}'
        if verb == 'segment_read':
            return 'R', f'query.SegmentRead {entry(a[0], a[1])} {a[2]} {a[3]}'
        if verb == 'as_get':
            return 'R', f'query.AsGet {entry(a[0], a[1])} {a[2]}'
        if verb == 'load':
            return 'R', f'query.Load {a[0]} {a[1]}'
        sys.exit(f'{self.name}: unknown call {verb}')

    def reply(self, verb, words, binds):
        kind, *r = words
        if kind == 'ok':
            return 'reply.Done'
        if kind == 'cat':
            made, self.next_category = self.next_category, self.next_category + 1
            self.bind(binds or r[0], made)
            return f'reply.Category (category {made})'
        if kind == 'id':
            made, self.next_id = self.next_id, self.next_id + 1
            self.bind(binds or r[0], made)
            return f'reply.Object {made}'
        if kind == 'refused':
            assert REFUSALS[int(r[0]) - 1] == r[1], words
            return f'reply.Refused {r[1]}'
        if kind == 'entered':
            return f'reply.Entered {r[0]} {r[1]}'
        if kind == 'data':
            return f'reply.Bytes {self.data(r[0])}'
        if kind == 'self':
            labels = ' '.join(self.label(word) for word in r[:3])
            return f'reply.Own {labels} {self.entry(r[3], r[4])} {r[5]} {r[6]}'
        if kind == 'label':
            return f'reply.Label {self.label(r[0])}'
        if kind == 'quota':
            flags = ' '.join('true' if word == '1' else 'false' for word in r[2:4])
            return f'reply.Quota {r[0]} {r[1]} {flags}'
        if kind == 'list':
            return f'reply.Listed {r[0]} {listed(self.number(word) for word in r[1:])}'
        if kind == 'parent':
            return f'reply.Parent {self.number(r[0])}'
        if kind == 'pages':
            return f'reply.Pages {r[0]}'
        if kind == 'mapping':
            return 'reply.Mapping None' if r[0] == 'none' else f'reply.Mapping (Some {self.mapping(r)})'
        sys.exit(f'{self.name}: unknown reply {kind}')

    def bind(self, name, value):
        if not name.startswith('#'):
            self.names.setdefault(name, value)

    def line(self, text):
        asked, answered = (part.strip() for part in text.split('=>'))
        self.spoken.append((asked, answered))
        binds, who, call = re.fullmatch(r'(?:(\w+) = )?([#\w]+): (.*)', asked).groups()
        thread = self.number(who)
        verb, *words = call.split()
        kind, value = self.call(verb, words)
        self.lines.append(f'{kind} {thread} ({value})')
        self.replies.append(self.reply(verb, answered.split(), binds))

    def end(self, text):
        kind, *words = text.split()
        if kind == 'ids':
            self.ends.append(f'ids ended ≡ {listed(words)}')
        elif kind == 'next':
            self.ends.append(f'ended.next_id ≡ {words[0]}')
        elif kind == 'uses':
            self.ends += [f'use_of ended {o} ≡ {n}' for o, n in zip(words[::2], words[1::2])]

    def claims(self):
        """The statements by their names."""
        claims = {self.name: [f'play (booted {self.limits}) {self.name}_lines', *chained('≡ ', self.replies)]}
        for place, end in enumerate(self.ends):
            said = end.replace('ended', f'(after (booted {self.limits}) {self.name}_lines)')
            claims[f'{self.name}_end_{place}'] = [said]
        return claims

    def statements(self):
        text = defined(f'{self.name}_lines', 'List Line', chained('', self.lines))
        for name, claim in self.claims().items():
            text += '\n' + defined(stated(name), 'Type 0', claim)
        return text

    def theorems(self):
        return '\n'.join(f'pub {name} : {stated(name)}\nunfolding {UNFOLDING}\n{name} = refl\n' for name in self.claims())


def chained(sign, items):
    """A list, an item a line."""
    lines = [f'∷ {item}' for item in items]
    lines[0] = sign + items[0]
    lines[-1] += ' ∷ []'
    return lines


def stated(name):
    return ''.join(word.capitalize() for word in name.split('_'))


def defined(name, kind, parts):
    """A definition, its lines within 100 columns."""
    head = f'abbrev pub {name} : {kind}\n{name} =\n'
    return head + ''.join(wrapped(part) + '\n' for part in parts)


def wrapped(text):
    return textwrap.fill(text, 100, initial_indent=INDENT, subsequent_indent=INDENT, break_long_words=False)


INDENT = '    '
UNFOLDING = (
    'answer next query_answer is_live live_part refused query_refused stored with_category below visible shown below_join '
    'below_join_up above_floor translate place_of'
)
IMPORTS = [
    ('Rattle.std.specs.Prelude', '◌≡◌ List [] ◌∷◌ replicate refl true false pos negsuc Some None'),
    ('Rattle.base.specs.Live', 'is_live'),
    ('Rattle.base.specs.declared.kinds.Kind.TheVariants', ' '.join(KINDS.values())),
    ('Rattle.base.specs.declared.levels.Level.TheVariants', 'Star L0 L1 L2 L3'),
    ('Rattle.base.specs.declared.refusals.Refusal.TheVariants', ' '.join(REFUSALS)),
    ('Rattle.label_lattice.specs.LabelRules', 'stored with_category below visible shown below_join below_join_up above_floor'),
    ('Rattle.kernel_rules.specs.Runs', 'booted'),
    ('Rattle.kernel_rules.specs.State', 'live_part use_of'),
    ('Rattle.kernel_rules.specs.Step', 'answer next query_answer'),
    ('Rattle.kernel_rules.specs.Table', 'refused query_refused'),
    ('Rattle.kernel_rules.specs.Translate', 'translate place_of'),
    ('Rattle.rule_scripts.specs.Play', 'Line W R play after ids limits raw label at entry mapping kinds category'),
    ('Rattle.rule_scripts.specs.Play', ' '.join(sorted(CREATES))),
]
VARIANTS = {'call': 'calls.Call', 'query': 'calls.Query', 'reply': 'replies.Reply'}


def imports(body, *more):
    """The use lines of the names that the text has, each line within 100 columns."""
    words = set(re.findall(r'[A-Za-z_0-9]+', body))
    signs = {'◌≡◌': '≡', '◌∷◌': '∷', '[]': '[]'}
    lines = []
    for module, names in [*IMPORTS, *more]:
        group = []
        for name in names.split():
            if signs[name] not in body if name in signs else name not in words:
                continue
            if group and len(f"use {module}.{{{', '.join(group + [name])}}}") > 100:
                lines.append(f"use {module}.{{{', '.join(group)}}}")
                group = []
            group.append(name)
        if group:
            lines.append(f"use {module}.{{{', '.join(group)}}}")
    for short, path in VARIANTS.items():
        if f'{short}.' in body:
            lines.append(f'use Rattle.kernel_rules.specs.declared.{path}.TheVariants as {short}')
    return '\n'.join(lines)


def worker_of(asked):
    return re.fullmatch(r'(?:\w+ = )?([#\w]+): .*', asked)[1]


def in_full(words):
    """Data in place of NxBB."""
    return re.sub(r'\b(\d+)x([0-9a-f]{2})\b', lambda many: many[2] * int(many[1]), words)


def in_phases(spoken):
    """The lines with '--' wherever another worker goes on, so that they are played in this order."""
    lines = []
    for line in spoken:
        if line and lines and lines[-1] and worker_of(lines[-1][0]) != worker_of(line[0]):
            lines.append(None)
        lines.append(line)
    return lines


def script_of(lines):
    return ''.join(f'{in_full(line[0])}\n' if line else '--\n' for line in lines)


def output_of(lines):
    """The workers in the order of their first lines, for each its lines."""
    said = {}
    for number, line in enumerate(lines, 1):
        if line:
            worker = worker_of(line[0])
            said.setdefault(worker, []).append(f'{worker} {number}: {in_full(line[1])}\n')
    return ''.join(line for lines in said.values() for line in lines)


def put(path, text):
    """Writes a file, where it doesn't stand so."""
    if not path.is_file() or path.read_text() != text:
        path.write_text(text)


def module(told, body, *more):
    return f'{told}\n{imports(body, *more)}\n\n{body}'


def scripts_in(path):
    """The scripts of a file."""
    read = []
    for text in path.read_text().splitlines():
        text = text.strip()
        if text.startswith('##'):
            name, *options = text[2:].split()
            read.append(Script(name, dict(word.split('=') for word in options)))
        elif text.startswith('!'):
            read[-1].end(text[1:].strip())
        elif text == '--':
            read[-1].spoken.append(None)
        elif text:
            read[-1].line(text)
    return read


CRATE = Path(__file__).resolve().parent.parent


def all_scripts():
    """The scripts of each file."""
    return {path: scripts_in(path) for path in sorted(CRATE.glob('scripts/*.txt'))}


def main():
    crate = CRATE
    modules = []
    for path, read in all_scripts().items():
        name = path.stem.capitalize()
        modules.append(name)
        told = f'Made by scripts/make.py from scripts/{path.stem}.txt.'
        claims = [claim for script in read for claim in script.claims()]
        every = defined(f'{name}Answer', 'Type 0', [' × '.join(map(stated, claims))])
        body = '\n'.join([*(script.statements() for script in read), f'-- all of these\n{every}'])
        put(crate / f'specs/{name}.antt', module(f'-- Scripts, and what each line answers. {told}', body))
        body = '\n'.join(script.theorems() for script in read)
        proofs = '(\n' + ''.join(f'  {claim},\n' for claim in claims) + ')' if claims[1:] else claims[0]
        body += f'\npub every : {name}Answer\nevery = {proofs}\n'
        stands = (f'Rattle.rule_scripts.specs.{name}', f"{name}Answer {' '.join(map(stated, claims))}")
        put(crate / f'proofs/{name}.antt', module(f'-- The scripts by computation. {told}', body, stands))
    for folder, first in (('specs', ['Play', 'Runs']), ('proofs', ['Runs'])):
        names = sorted(first + modules)
        put(crate / folder / 'Lib.antt', ''.join(f'pub mod {name}\n' for name in names))


if __name__ == '__main__':
    main()
