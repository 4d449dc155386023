#!/usr/bin/env python3
"""Packed cases: many case folders in one file, for a program that reads them from standard input.

    pack.py pack [--queries] [--rooms] [--batch] [--log] DIR OUT [NAME..]   packs the case folders of DIR, sorted by name, into OUT/stdin, and joins
                                      their answers.txt, batch-answer.txt and bends.txt (by `oracle suite --only KINDS DIR`) to OUT/stdout;
                                      OUT/names has a name for each case. NAME: patterns such as 'd*', all folders where there is none.
                                      The queries, rooms, batches and logs have length 0 unless the options ask for them
    pack.py limit DIR N [M]           cuts each queries.txt of DIR to its first N queries (gen.py shuffles them), before the oracle answers;
                                      to M where the chart has some 40 vertices or more
    pack.py unpack FILE DIR           the cases of a packed file as case folders 00000, 00001, .. of DIR
    pack.py where OUT BYTE            the case to which a byte of OUT/stdout belongs
    pack.py feed FILE PROGRAM..       runs a program with FILE as its standard input, in pieces of 1 to 99 bytes

A case is a line of five fields of 8 columns with the lengths of chart.txt, queries.txt, rooms.txt, batch.txt and log.txt, and then the bytes
of these five. A file that is missing counts as empty.
"""
import collections, fnmatch, os, random, re, subprocess, sys

sys.dont_write_bytecode = True  # nothing is left in the source tree
from second import fields

TEXTS = ('chart.txt', 'queries.txt', 'rooms.txt', 'batch.txt', 'log.txt')


def names(d):
    return [name for name in sorted(os.listdir(d)) if os.path.isdir(os.path.join(d, name))]


def read(*path):
    path = os.path.join(*path)
    return open(path, 'rb').read() if os.path.exists(path) else b''


def write(b, *path):
    with open(os.path.join(*path), 'wb') as f: f.write(b)


def verdict(answers):
    return re.match(rb'verdict (\d+)$', answers.split(b'\n')[0]).group(1).decode()


def pack(d, out, patterns, texts):
    stdin, stdout, packed, count = [], [], [], collections.Counter()
    for name in names(d):
        if not any(fnmatch.fnmatch(name, p) for p in patterns or ['*']): continue
        parts = [read(d, name, t) if t in texts else b'' for t in TEXTS]
        answers = read(d, name, 'answers.txt')
        # expect.txt is by the second implementation: the two must agree before they judge a third
        expect = read(d, name, 'expect.txt').decode().split()
        if expect and expect[0] != verdict(answers): sys.exit('%s: the oracle says %s and gen.py %s' % (name, verdict(answers), expect[0]))
        stdin += [b'%8d%8d%8d%8d%8d\n' % tuple(map(len, parts))] + parts
        stdout += [answers, read(d, name, 'batch-answer.txt') if parts[3] else b'', read(d, name, 'bends.txt') if parts[4] else b'']
        packed.append(name)
        count[int(verdict(answers))] += 1
    os.makedirs(out, exist_ok=True)
    write(b''.join(stdin), out, 'stdin')
    write(b''.join(stdout), out, 'stdout')
    write('\n'.join(packed + ['']).encode(), out, 'names')
    print('%d cases, %d bytes; verdicts: %s' % (sum(count.values()), sum(map(len, stdin)), ', '.join('%d: %d' % p for p in sorted(count.items()))))


def limit(d, n, m):
    for name in os.listdir(d):
        lines = read(d, name, 'queries.txt').splitlines(True)
        kept = n if len(read(d, name, 'chart.txt')) < 10000 else m
        if len(lines) > kept: write(b''.join(lines[:kept]), d, name, 'queries.txt')


def unpack(path, d):
    b, at, n = read(path), 0, 0
    while at < len(b):
        sizes = fields(b[at:at + 41], 5)
        if sizes is None or min(sizes) < 0: sys.exit('byte %d: no header' % at)
        at += 41
        case = os.path.join(d, '%05d' % n)
        os.makedirs(case)
        for t, size in zip(TEXTS, sizes):
            if at + size > len(b): sys.exit('byte %d: the last case is not whole' % at)
            if size or t == TEXTS[0]: write(b[at:at + size], case, t)
            at += size
        n += 1
    print('%d cases' % n)


def where(out, byte):
    for name, case in zip(read(out, 'names').decode().split(), re.split(rb'(?m)^(?=verdict )', read(out, 'stdout'))[1:]):
        byte -= len(case)
        if byte < 0: break
    print(name)


def feed(path, command):
    b, rnd, at = read(path), random.Random(1), 0
    program = subprocess.Popen(command, stdin=subprocess.PIPE)
    while at < len(b):
        n = rnd.randint(1, 99)
        os.write(program.stdin.fileno(), b[at:at + n])
        at += n
    program.stdin.close()
    return program.wait()


if __name__ == '__main__':
    a = [w for w in sys.argv[1:] if w not in ('--queries', '--rooms', '--batch', '--log')]
    if a[:1] == ['pack'] and len(a) > 2:
        pack(a[1], a[2], a[3:], [t for t in TEXTS if t == TEXTS[0] or '--' + t[:-4] in sys.argv])
    elif a[:1] == ['limit'] and len(a) in (3, 4): limit(a[1], int(a[2]), int(a[-1]))
    elif a[:1] == ['unpack'] and len(a) == 3: unpack(a[1], a[2])
    elif a[:1] == ['where'] and len(a) == 3: where(a[1], int(a[2]))
    elif a[:1] == ['feed'] and len(a) > 2: sys.exit(feed(a[1], a[2:]))
    else: sys.exit(__doc__)
