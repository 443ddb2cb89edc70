#!/usr/bin/env python3
"""Writes the scripts of the workloads: workloads.py OUT [--seed S] [--lines N] (at most 65,536 lines each).

Beside each NAME.script stands NAME.args, the further words of its command line.
  a   segment_write and segment_read of 64 bytes on one segment, in turn
  b   load and store of 64 bytes through a mapping, in turn
  c   create and unref of segments, by ids;  cn  the same by names
  d   trees of containers 5 deep with hard links, taken off by one unref each
  e   16 categories, threads with labels of their own (a phase each), gates, self_set_label
  f   a mix of all calls at 512 pages, 1 to 8 threads in phases of their own
"""
import argparse
import os
import random

MOST = 65536


def hexes(rng, n=64):
    return rng.randbytes(n).hex()


def write_read(rng, n):
    yield 's = boot: segment_create root {1} 17 16'
    for i in range(n - 1):
        off = 64 * rng.randrange(64)
        yield (f'boot: segment_read root s {off} 64' if i % 2 else
               f'boot: segment_write root s {off} {hexes(rng)}')


def load_store(rng, n):
    yield 's = boot: segment_create root {1} 17 16'
    yield 'm = boot: as_create root {1} 1'
    for slot in range(4):
        yield f'boot: as_map root m {slot * 5} {slot * 1000} root s {slot * 4} 4 rw'
    yield 'boot: self_set_as root m'
    for i in range(n - 7):
        addr = rng.randrange(4) * 1000 * 256 + 64 * rng.randrange(16)
        yield f'boot: load {addr} 64' if i % 2 else f'boot: store {addr} {hexes(rng)}'


def create_unref(rng, n, named):
    live, next_id = [], 4
    for _ in range(n):
        if len(live) < 10 or (len(live) < 25 and rng.random() < 0.5):
            name = f's{next_id}' if named else f'#{next_id}'
            next_id += 1
            live.append(name)
            pages = rng.randrange(2)
            yield (f'{name} = ' if named else '') + f'boot: segment_create root {{1}} {1 + pages} {pages}'
        else:
            yield f'boot: unref root {live.pop(rng.randrange(len(live)))}'


def trees(rng, n):
    """Each tree: 5 containers in each other, 4 segments in each, half of them also linked elsewhere."""
    next_id = 4
    yield 'boot: container_create root {1} 100 -'
    side, next_id = next_id, next_id + 1
    left = n - 1
    while left > 0:
        lines, kept, quota = [], [], 300
        top = above = 1
        for depth in range(5):
            quota -= 40
            lines.append(f'boot: container_create #{above} {{1}} {quota} -')
            here, next_id = next_id, next_id + 1
            top = here if depth == 0 else top
            above = here
            for k in range(4):
                pages = rng.randrange(3)
                lines.append(f'boot: segment_create #{here} {{1}} {1 + pages} {pages}')
                o, next_id = next_id, next_id + 1
                if k % 2 == 0:
                    lines.append(f'boot: set_fixed #{here} #{o}')
                    lines.append(f'boot: link #{side} #{here} #{o}')
                    kept.append(o)
                    if depth > 0:
                        lines.append(f'boot: link #{top} #{here} #{o}')
        lines.append(f'boot: container_parent #{above}')
        lines.append(f'boot: unref #1 #{top}')
        lines.append(f'boot: container_list #{side} 0')
        lines.extend(f'boot: unref #{side} #{o}' for o in kept)
        yield from lines[:left]
        left -= len(lines)


CATS = 16


def label(levels, default):
    return '{' + ''.join(f'c{i}:{l},' for i, l in sorted(levels.items())) + default + '}'


def labels(rng, n):
    threads = max(1, min(60, n // 400))
    lines = [f'c{i} = boot: cat_create' for i in range(CATS)]
    everything = label({i: '*' for i in range(CATS)}, '1')
    full = label({i: '3' for i in range(CATS)}, '2')
    lines.append(f'g = boot: gate_create root {everything} 1 {full} #0 #0 7 9')
    seen = {}
    for k in range(40):
        seen[k] = {i: rng.choice('0123') for i in rng.sample(range(CATS), rng.randrange(1, 9))}
        lines.append(f's{k} = boot: segment_create root {label(seen[k], "1")} 2 1')
    for t in range(threads):
        own = {i: rng.choice('*123') for i in rng.sample(range(CATS), rng.randrange(4, CATS + 1))}
        lines.append(f't{t} = boot: thread_create root {label(own, "1")} 1 {full} {t}')
    each = (n - len(lines) - threads) // threads
    for t in range(threads):
        lines.append('--')
        w, done = f't{t}', 0
        while done < each:
            raised = {i: rng.choice('*123') for i in rng.sample(range(CATS), rng.randrange(4, CATS + 1))}
            k = rng.randrange(40)
            some = [f'{w}: gate_enter root g {everything} {full} {{3}}',
                    f'{w}: segment_read root s{rng.randrange(40)} 64 64',
                    f'{w}: segment_write root s{k} 0 {hexes(rng)}',
                    f'{w}: self_set_label {label(raised, "1")}',
                    f'{w}: segment_read root s{k} 0 64',
                    f'{w}: obj_label root s{rng.randrange(40)}',
                    f'{w}: obj_label root t{rng.randrange(threads)}',
                    f'{w}: self_set_label {label({**raised, **{i: "3" for i, l in raised.items() if l != "*"}}, "1")}',
                    f'{w}: segment_write root s{rng.randrange(40)} 64 {hexes(rng)}',
                    f'{w}: self_get']
            lines.extend(some[:each - done])
            done += len(some)
    yield from lines[:n]


class Mix:
    """All calls; what is live is followed roughly, so that most calls succeed."""

    def __init__(self, rng):
        self.rng, self.serial = rng, 0
        self.where = {}         # name -> (container, kind, quota)
        self.room = {'root': 512 - 4 - 7 - 17 - 1}

    def pick(self, *kinds):
        found = [(d, o) for o, (d, kind, _) in self.where.items() if kind in kinds]
        if not found or self.rng.random() < 0.02:
            return 'root', self.rng.choice(['root', 'dev', 'boot', '#77', 'm', 's'])
        return self.rng.choice(found)

    def container(self):
        found = [o for o, (_, kind, _) in self.where.items() if kind == 'c']
        return self.rng.choice(found) if found and self.rng.random() < 0.5 else 'root'

    def lab(self):
        return self.rng.choice(['{1}'] * 8 + ['{2}', '{cb:0,1}', '{ca:2,1}'])

    def drop(self, o):
        d, kind, quota = self.where.pop(o)
        if d in self.room:
            self.room[d] += quota
        if kind == 'c':
            del self.room[o]
            for inner in [i for i, (d, _, _) in self.where.items() if d == o]:
                if inner in self.where:
                    self.drop(inner)

    def make(self):
        rng, d, kind = self.rng, self.container(), self.rng.choice('cssssaag')
        pages = rng.randrange(3)
        quota = {'c': rng.randrange(8, 24), 's': 1 + pages}.get(kind, 1)
        if self.room[d] < quota:
            return None
        self.serial += 1
        o = f'{kind}{self.serial}'
        self.room[d] -= quota
        self.where[o] = (d, kind, quota)
        if kind == 'c':
            self.room[o] = quota - 1
        return o, {'c': f'container_create {d} {{1}} {quota} -',
                   's': f'segment_create {d} {self.lab()} {quota} {pages}',
                   'a': f'as_create {d} {{1}} 1',
                   'g': f'gate_create {d} {{1}} 1 {{2}} root m 1 2'}[kind]

    def call(self):
        rng, pick = self.rng, self.pick
        x = rng.random()
        if x < 0.09 and len(self.where) > 100:
            d, o = pick('c', 's', 's', 'a', 'g')
            if o in self.where:
                self.drop(o)
                return None, f'unref {d} {o}'
        if x < 0.22:
            found = self.make()
            if found:
                return found
        d, o = pick('s')
        da, a = pick('a')
        data = hexes(rng, rng.randrange(1, 65))
        off = 64 * rng.randrange(4)
        addr = 256 * rng.randrange(18) + off
        g = pick('g')
        calls = [
            (6, f'segment_write {d} {o} {off} {hexes(rng)}'), (6, f'segment_read {d} {o} {off} 64'),
            (5, f'store {addr} {hexes(rng)}'), (5, f'load {addr} 64'),
            (4, f'as_map {da} {a} {rng.randrange(16)} {rng.randrange(60)} {d} {o} 0 {rng.randrange(1, 4)} rw'),
            (2, f'as_unmap {da} {a} {rng.randrange(16)}'), (2, f'as_get {da} {a} {rng.randrange(16)}'),
            (1, f'self_set_as {da} {a}'), (3, 'self_set_as root m'), (2, f'set_fixed {d} {o}'),
            (3, f'link {self.container()} {d} {o}'),
            (2, f'quota_move {d} {o} {rng.choice([1, 1, -1, 2])}'), (2, f'segment_resize {d} {o} {rng.randrange(3)}'),
            (1, f'meta_set {d} {o} {data}'), (1, f'meta_get {d} {o}'), (1, f'segment_len {d} {o}'),
            (2, f'obj_label {d} {o}'), (2, f'obj_quota {d} {o}'), (1, f'container_list {self.container()} 0'),
            (1, f'container_parent {self.container()}'), (1, 'self_get'), (1, f'dev_send root dev {data}'),
            (1, 'dev_recv root dev'), (1, f'gate_enter {g[0]} {g[1]} {{1}} {{2}} {{3}}'),
            (1, 'self_set_label {1}'), (1, 'self_set_clearance {2}'),
        ]
        return None, rng.choices([c for _, c in calls], [w for w, _ in calls])[0]

    def lines(self, n):
        yield 'ca = boot: cat_create'
        yield 'cb = boot: cat_create'
        yield 's = boot: segment_create root {1} 17 16'
        yield 'm = boot: as_create root {1} 1'
        yield 'boot: as_map root m 0 0 root s 0 16 rw'
        for t in range(7):
            yield f't{t} = boot: thread_create root {{1}} 1 {{2}} 0'
        workers = ['boot'] + [f't{t}' for t in range(7)]
        made = 12
        while made < n:
            yield '--'
            made += 1
            worker = self.rng.choice(workers)
            for _ in range(min(n - made, self.rng.randrange(200, 1000))):
                bound, text = self.call()
                yield (f'{bound} = ' if bound else '') + f'{worker}: {text}'
                made += 1


WORKLOADS = {
    'a': (write_read, 64),
    'b': (load_store, 64),
    'c': (lambda rng, n: create_unref(rng, n, False), 64),
    'cn': (lambda rng, n: create_unref(rng, n, True), 64),
    'd': (trees, 512),
    'e': (labels, 512),
    'f': (lambda rng, n: Mix(rng).lines(n), 512),
}


def main():
    parser = argparse.ArgumentParser(description=__doc__, formatter_class=argparse.RawDescriptionHelpFormatter)
    parser.add_argument('out')
    parser.add_argument('--seed', default='1')
    parser.add_argument('--lines', type=int, default=MOST)
    options = parser.parse_args()
    os.makedirs(options.out, exist_ok=True)
    for name, (make, pages) in WORKLOADS.items():
        lines = list(make(random.Random(f'{options.seed} {name}'), min(options.lines, MOST)))
        assert len(lines) <= MOST
        with open(os.path.join(options.out, f'{name}.script'), 'w') as f:
            f.write(''.join(line + '\n' for line in lines))
        with open(os.path.join(options.out, f'{name}.args'), 'w') as f:
            f.write(f'--pages {pages}\n')


if __name__ == '__main__':
    main()
