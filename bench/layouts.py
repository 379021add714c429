#!/usr/bin/env python3
"""Time and peak memory of `rdbg check L` for layout files of n and 2n bytes, up to 16 MiB.

    bench/layouts.py PROGRAM [DIRECTORY]

Makes lawful layouts: of types and statics whose names grow with the file, so that the largest has nearly the greatest size and nearly the
greatest number of lines; and of functions, up to 20,000 variables and nearly 40,000 parts: many variables, scopes beside one another and
inside one another, many entries of one variable, many pieces of one entry, and many operations. Runs the program on them, and prints for
each the best of three times, the ratio of the second time to the first, and the peak memory as a multiple of the file's size. Linear time
has a ratio near 2.
"""
import os

import measure


def write_layout(path, types, fields, statics, letters):
    """Structs with so many fields each, and statics, whose names have about so many letters."""
    pad = 'x' * letters
    with open(path, 'w') as out:
        out.write('rdbg-layout 1\ntarget 8\n')
        for i in range(types):
            out.write('type %d struct %d 1 demo::%s%d\n' % (i, fields, pad, i))
            for j in range(fields):
                out.write('field %s%d %d u8\n' % (pad[:200], j, j))
        for i in range(statics):
            out.write('static 0x%x #%d demo::%s_%d\n' % (0x10000 + 8 * i, i % types, pad, i))


def write_scope(out, depth, lo, hi, variables, entries, location):
    """A scope with so many variables, each with so many entries, of which each is for one address."""
    out.write('scope %d 0x%x..0x%x\n' % (depth, lo, hi))
    for i in range(variables):
        out.write('var v%d #0\n' % i)
        for j in range(entries):
            out.write('at 0x%x 0x%x %s\n' % (lo + j, lo + j + 1, location(j)))


def write_function(out, number, towers, depth, variables, entries, location):
    """A function whose body has so many scopes beside one another, in each of which others are inside one another, so many deep."""
    size = max(1, entries)
    tower = depth * size
    begin = 0x400000 + number * (towers * tower + size)
    out.write('fn rbp demo::f%d\n' % number)
    write_scope(out, 0, begin, begin + towers * tower + size, variables, entries, location)
    for i in range(towers):
        lo = begin + i * tower
        for j in range(depth):
            write_scope(out, j + 1, lo + j * size, lo + tower, variables, entries, location)


def write_functions(path, functions, towers, depth, variables, entries, size, location):
    """So many functions of one shape; the variables' type has so many bytes."""
    with open(path, 'w') as out:
        out.write('rdbg-layout 1\ntarget 8\ntype 0 bytes %d 1 demo::B\n' % size)
        for i in range(functions):
            write_function(out, i, towers, depth, variables, entries, location)


def in_memory(k):
    """A place in memory, another for each entry."""
    return 'mem rbp -%d' % (8 * k + 8)


def in_pieces(count):
    """So many pieces of one byte each, in two registers by turns."""
    pieces = ''.join('\npiece 1 %s' % ['reg rax', 'reg rbp'][i % 2] for i in range(count))
    return lambda k: 'pieces %d' % count + pieces


def computed(k):
    """64 operations, others for each entry."""
    return 'expr const:%d' % k + ' cfa plus' * 31 + ' value'


# The name, what writes it, and the shapes for n and 2n.
ROWS = [
    ('short names', write_layout, (2500, 2, 2500, 1), (5000, 2, 5000, 1)),
    ('many lines', write_layout, (9500, 2, 9500, 20), (19000, 2, 19000, 20)),
    ('long names', write_layout, (9500, 2, 9500, 90), (19000, 2, 19000, 90)),
    ('greatest file', write_layout, (9500, 2, 9500, 160), (19000, 2, 19000, 160)),
    ('functions', write_functions, (5000, 0, 0, 1, 1, 8, in_memory), (10000, 0, 0, 1, 1, 8, in_memory)),
    ('variables', write_functions, (10, 0, 0, 1000, 1, 8, in_memory), (20, 0, 0, 1000, 1, 8, in_memory)),
    ('one scope', write_functions, (1, 0, 0, 10000, 1, 8, in_memory), (1, 0, 0, 20000, 1, 8, in_memory)),
    ('scopes', write_functions, (1, 9000, 1, 1, 0, 8, in_memory), (1, 18000, 1, 1, 0, 8, in_memory)),
    ('nested scopes', write_functions, (1, 45, 200, 1, 0, 8, in_memory), (1, 90, 200, 1, 0, 8, in_memory)),
    ('entries', write_functions, (1, 0, 0, 1, 19000, 8, in_memory), (1, 0, 0, 1, 38000, 8, in_memory)),
    ('pieces', write_functions, (1, 0, 0, 1, 1, 19000, in_pieces(19000)), (1, 0, 0, 1, 1, 38000, in_pieces(38000))),
    ('operations', write_functions, (1, 0, 0, 1, 300, 8, computed), (1, 0, 0, 1, 600, 8, computed)),
]


def main():
    with measure.program_and_folder(__doc__) as (program, folder):
        measure.print_head('layout')
        for name, write, first, second in ROWS:
            paths = []
            for i, shape in enumerate((first, second)):
                path = os.path.join(folder, 'layout%d.txt' % i)
                write(path, *shape)
                paths.append(path)
            once, twice = [measure.best([program, 'check', path], b'lawful\n') for path in paths]
            measure.print_row(name, os.path.getsize(paths[1]), once, twice)


if __name__ == '__main__':
    main()
