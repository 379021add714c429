#!/usr/bin/env python3
"""Time and peak memory of `rdbg text L S` for n and 2n statics of nested enums, texts, slices and structs, over snapshots of n and 2n bytes.

    bench/values.py PROGRAM [DIRECTORY] [--before OLD]

Makes a layout and snapshots up to nearly 64 MiB, runs the program on them, and prints for each row the best of three times for n and
2n, their ratio, and the peak memory as a multiple of the files' size. Linear time has a ratio near 2. The last row asks for a slice that
claims 2^62 elements, of which two are shown: its time doesn't depend on the length.

With `--before OLD` the same files of 2n are also read by the program OLD, five times each in turn, and a second table has the best times
and the peaks in bytes of both, with their ratios.
"""
import os
import random

import measure

BASE = 0x10000
TYPES = '''type 0 enum 1 1 core::option::Option<bool>
tag 0 u8
variant None exact 2
variant Some span 3 1
field __0 0 bool
type 1 enum 1 1 core::option::Option<core::option::Option<bool>>
tag 0 u8
variant None exact 3
variant Some span 4 2
field __0 0 #0
type 2 thin const u8
type 3 str ref #2 &str
type 4 thin const u32
type 5 slice ref #4 &[u32]
type 6 struct 48 8 demo::Row
field name 0 #3
field parts 16 #5
field flag 32 #1
field number 40 u64
'''


def write_layout(path, statics):
    with open(path, 'w') as out:
        out.write('rdbg-layout 1\ntarget 8\n' + TYPES)
        for i in range(statics):
            out.write('static 0x%x #%d demo::V%d\n' % (BASE + 48 * i, [6, 3, 5, 1][i % 4], i))


def write_snapshot(path, statics, size):
    """So many rows, and after them letters, in lines of 4,096 bytes."""
    rng = random.Random(statics)
    text_at = BASE + 48 * statics
    letters = size - 48 * statics
    with open(path, 'w') as out:
        out.write('rdbg-snapshot 1\npc 0x0\n')
        rows = bytearray()
        for _ in range(statics):
            at = text_at + rng.randrange(max(1, letters - 128))
            rows += at.to_bytes(8, 'little') + (64).to_bytes(8, 'little') + at.to_bytes(8, 'little') + (16).to_bytes(8, 'little')
            rows += bytes([rng.randrange(4)]) + bytes(7) + rng.randbytes(8)
        whole = bytes(rows) + bytes(97 + i % 26 for i in range(letters))
        for i in range(0, len(whole), 4096):
            out.write('mem 0x%x %s\n' % (BASE + i, whole[i:i + 4096].hex()))


def main():
    before = measure.take_option('--before')
    compared = []
    with measure.program_and_folder(__doc__) as (program, folder):
        files = [os.path.join(folder, name) for name in ('layout.txt', 'snapshot.txt')]
        measure.print_head('what')
        for name, statics, size in [('few bytes', 10000, 1 << 20), ('many bytes', 100, 31 << 19), ('both', 10000, 31 << 19)]:
            runs = []
            for times in (1, 2):
                write_layout(files[0], statics * times)
                write_snapshot(files[1], statics * times, size * times)
                runs.append(measure.best([program, 'text'] + files, b'pc 0x0\n'))
            measure.print_row(name, sum(os.path.getsize(file) for file in files), *runs)
            if before is not None:
                compared.append((name, *measure.best_of_both([program, 'text'] + files, os.path.abspath(before), b'pc 0x0\n')))
        with open(files[0], 'w') as out:
            out.write('rdbg-layout 1\ntarget 8\ntype 0 thin const ()\ntype 1 thin const u8\ntype 2 slice ref #1 &[u8]\nstatic 0x1000 #2 demo::S\n')
        with open(files[1], 'w') as out:
            out.write('rdbg-snapshot 1\npc 0x0\nmem 0x1000 00200000000000000000000000000040\nmem 0x2000 0102\n')
        took, _ = measure.best([program, 'text'] + files + ['--depth', '1', '--width', '2'], b'pc 0x0\nstatic demo::S = &[0x2000; 4611686018427387904]')
        print('%-22s %31.3fs' % ('2^62 elements claimed', took))
    if before is not None:
        print('\n%-22s %10s %10s %6s %11s %11s %6s' % ('what', 'now', 'before', 'ratio', 'peak', 'before', 'ratio'))
    for row in compared:
        measure.print_both(*row)


if __name__ == '__main__':
    main()
