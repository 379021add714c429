#!/usr/bin/env python3
"""Time and peak memory of `rdbg text L S` where a function runs, for layouts of n and 2n of its parts.

    bench/functions.py PROGRAM [DIRECTORY]

The layouts are those of functions that layouts.py makes: many variables, scopes beside and inside one another, many entries of one variable
and many pieces of one entry. The program counter is in the last zone or entry of all, so that as much as can be is looked at, and the
registers and the memory that the variables name are there. Prints for each the best of three times, the ratio of the second time to the
first, and the peak memory as a multiple of the files' size. Linear time has a ratio near 2.
"""
import os

import layouts
import measure

FRAME = 0x7fff00000000


def write_snapshot(path, pc, bytes_below):
    """A snapshot whose frame has so many bytes below it."""
    with open(path, 'w') as out:
        out.write('rdbg-snapshot 1\npc 0x%x\nreg rax 0x2a\nreg rbp 0x%x\n' % (pc, FRAME))
        out.write('mem 0x%x %s\n' % (FRAME - bytes_below, '07' * bytes_below))


# The name, the shapes of the layouts for n and 2n, and where the program counter is in each.
ROWS = [
    ('one scope', (1, 0, 0, 10000, 1, 8, layouts.in_memory), (1, 0, 0, 20000, 1, 8, layouts.in_memory), lambda shape: 0),
    ('scopes', (1, 9000, 1, 1, 0, 8, layouts.in_memory), (1, 18000, 1, 1, 0, 8, layouts.in_memory), lambda shape: shape[1] - 1),
    ('nested scopes', (1, 45, 200, 1, 0, 8, layouts.in_memory), (1, 90, 200, 1, 0, 8, layouts.in_memory), lambda shape: shape[1] * 200 - 1),
    ('entries', (1, 0, 0, 1, 19000, 8, layouts.in_memory), (1, 0, 0, 1, 38000, 8, layouts.in_memory), lambda shape: shape[4] - 1),
    ('pieces', (1, 0, 0, 1, 1, 19000, layouts.in_pieces(19000)), (1, 0, 0, 1, 1, 38000, layouts.in_pieces(38000)), lambda shape: 0),
]


def main():
    with measure.program_and_folder(__doc__) as (program, folder):
        layout, snapshot = (os.path.join(folder, name) for name in ('layout.txt', 'snapshot.txt'))
        measure.print_head('layout and snapshot')
        for name, first, second, place in ROWS:
            runs = []
            for shape in (first, second):
                layouts.write_functions(layout, *shape)
                write_snapshot(snapshot, 0x400000 + place(shape), 8 * max(1, shape[4]))
                runs.append(measure.best([program, 'text', layout, snapshot], b'pc 0x'))
            size = os.path.getsize(layout) + os.path.getsize(snapshot)
            measure.print_row(name, size, *runs)


if __name__ == '__main__':
    main()
