#!/usr/bin/env python3
"""Time of `rdbg text L S` for n and 2n, and of `cat` and of a plain one-pass reader beside it.

    bench/statics.py PROGRAM [DIRECTORY]

Makes layouts with many statics and snapshots of many bytes, runs the program on them, and prints for each row the best of three
times, and the ratio of the second time to the first. Linear time has a ratio near 2.
"""
import os
import random
import time

import measure

PRIMS = ['u8', 'u16', 'u32', 'u64', 'u128', 'i8', 'i32', 'i64', 'i128', 'bool', 'char', 'f32', 'f64', '()']
BASE = 0x10000


def layout(path, statics, bytes_):
    rng = random.Random(statics)
    with open(path, 'w') as out:
        out.write('rdbg-layout 1\ntarget 8\n')
        for i in range(statics):
            out.write('static 0x%x %s S%d\n' % (BASE + rng.randrange(max(1, bytes_ - 16)), PRIMS[i % len(PRIMS)], i))


def snapshot(path, bytes_, a_line, gap):
    rng = random.Random(bytes_)
    with open(path, 'w') as out:
        out.write('rdbg-snapshot 1\npc 0x0\n')
        at = BASE
        for i in range(bytes_ // a_line):
            out.write('mem 0x%x %s\n' % (at, rng.randbytes(a_line).hex()))
            at += a_line + (gap if i % 8 == 7 else 0)


def one_pass(*paths):
    start = time.perf_counter()
    for path in paths:
        with open(path, 'rb') as f:
            for _line in f:
                pass
    return time.perf_counter() - start


def row(program, folder, name, statics, bytes_, a_line, gap):
    l, s = os.path.join(folder, 'l'), os.path.join(folder, 's')
    layout(l, statics, bytes_)
    snapshot(s, bytes_, a_line, gap)
    time_ = measure.best([program, 'text', l, s])[0]
    print('%-44s %9d statics %11d bytes of files  %7.3f s   cat %6.3f s   one pass %6.3f s' % (
        name, statics, os.path.getsize(l) + os.path.getsize(s), time_, measure.best(['cat', l, s])[0], one_pass(l, s)))
    return time_


def main():
    with measure.program_and_folder(__doc__) as (program, folder):
        for name, first, second in [
            ('statics, over one small run', (10000, 1 << 16, 64, 0), (20000, 1 << 16, 64, 0)),
            ('memory in lines of 64 bytes, gaps', (100, 12 << 20, 64, 8), (100, 24 << 20, 64, 8)),
            ('memory in lines of 4 bytes, gaps', (100, 2 << 20, 4, 8), (100, 4 << 20, 4, 8)),
            ('both', (10000, 14 << 20, 64, 8), (20000, 28 << 20, 64, 8)),
        ]:
            a = row(program, folder, name, *first)
            b = row(program, folder, name + ', twice', *second)
            print('    ratio %.2f' % (b / a))


if __name__ == '__main__':
    main()
