#!/usr/bin/env python3
"""Time of `rdbg check L` for layout files of n and 2n items, of the shapes that could cost a law the square of a count.

    bench/laws.py PROGRAM [DIRECTORY]

Makes lawful layout files up to the limits of a set (20,000 types, 40,000 parts, 20,000 variables), runs the program on them, and
prints for each shape the best of three times for n and for 2n items, and the ratio of the second to the first. Linear time has a
ratio near 2. Work that is the same for both, as the start of the program, makes it less.
"""
import os

import measure


def chained(count):
    """So many arrays, the first of bytes, each other one of the one before."""
    for i in range(count):
        yield 'type %d array 1 %s' % (i, '#%d' % (i - 1) if i else 'u8')


def struct(place, size, name, fields):
    yield 'type %d struct %d 1 %s' % (place, size, name)
    for i, (off, ty) in enumerate(fields):
        yield 'field f%d %d %s' % (i, off, ty)


def option(place, size, prim, tag, ty):
    """An enum one of whose variants is chosen by 2, and the other by all other numbers."""
    yield 'type %d enum %d 1 demo::E%05d' % (place, size, place)
    yield 'tag %d %s' % (tag, prim)
    yield 'variant None exact 2'
    yield 'variant Some span 3 1'
    yield 'field __0 0 %s' % ty


def wide_struct(n):
    """A struct of n fields, the last one first."""
    return struct(0, n, 'demo::A', ((n - 1 - i, 'u8') for i in range(n)))


def wide_c_like(n):
    """An enum of n cases, the highest number first."""
    yield 'type 0 clike u32 demo::A'
    for i in range(n):
        yield 'case C%d %d' % (i, n - i)


def wide_enum(n):
    """An enum of half as many variants with a field each."""
    yield 'type 0 enum 8 4 demo::A'
    yield 'tag 0 u32'
    for i in range(n // 2):
        yield 'variant V%d exact %d' % (i, n - i)
        yield 'field __0 4 u32'


def chains(n):
    """Arrays in chains of 256."""
    for i in range(n):
        yield 'type %d array 1 %s' % (i, '#%d' % (i - 1) if i % 256 else 'u8')


def fields_of_chains(n):
    """A struct of n fields, each of which is an array of 255 levels."""
    yield from chained(255)
    yield from struct(255, n, 'demo::A', ((i, '#254') for i in range(n)))


def names(n):
    """Names of one length that differ at their ends."""
    for i in range(n):
        yield 'type %d bytes 1 1 demo::%s::b%05d' % (i, 'a' * 90, i)


def pointers(n):
    """Pointers to pointers, whose derived names are as long as they may be."""
    for i in range(n):
        yield 'type %d thin ref %s' % (i, '#%d' % (i - 1) if i % 142 else 'u8')


def statics(n):
    for i in range(n):
        yield 'static 0x%x u8 demo::s%05d' % (i, i)


def options_of_struct(n):
    """Enums whose tags all lie on the last field of one struct of many fields."""
    fields = n // 2
    yield from struct(0, fields, 'demo::A', ((i, 'bool') for i in range(fields)))
    for i in range(n // 6):
        yield from option(i + 1, fields, 'u8', fields - 1, '#0')


def options_of_chains(n):
    """The same, where all fields but the last are arrays of 254 levels."""
    fields = n // 2
    yield from chained(254)
    yield from struct(254, fields, 'demo::A', ((i, 'bool' if i == fields - 1 else '#253') for i in range(fields)))
    for i in range(n // 6):
        yield from option(i + 255, fields, 'u8', fields - 1, '#254')


def options_of_cases(n):
    """Enums whose tags all lie on one C-like enum of many cases."""
    yield 'type 0 clike u32 demo::A'
    for i in range(n // 2):
        yield 'case C%d %d' % (i, i + 3)
    for i in range(n // 6):
        yield from option(i + 1, 4, 'u32', 0, '#0')


def function(zone):
    """A function whose body has this zone."""
    yield 'fn none demo::f'
    yield 'scope 0 0x%x..0x%x' % zone


def scopes(n):
    """A function of half as many scopes, each with a zone; they nest 200 deep, again and again."""
    yield from function((0x1000, 0x2000))
    for i in range(n // 2 - 1):
        yield 'scope %d 0x1000..0x2000' % (i % 200 + 1)


def entries(n):
    """A variable of n - 2 entries, each for another byte of code."""
    yield from function((0, 2 * n))
    yield 'var x u64'
    for i in range(n - 2):
        yield 'at 0x%x 0x%x reg %s' % (2 * i, 2 * i + 1, ('rax', 'rbx')[i % 2])


def pieces(n):
    """A variable of n - 3 pieces, every other one of which is nowhere."""
    count = n - 3
    yield 'type 0 array %d u8' % count
    yield from function((0, 1))
    yield 'var x #0'
    yield 'at 0x0 0x1 pieces %d' % count
    for i in range(count):
        yield 'piece 1 %s' % ('reg rax', 'none')[i % 2]


SHAPES = [
    (wide_struct, 40000),
    (wide_c_like, 40000),
    (wide_enum, 40000),
    (chains, 20000),
    (fields_of_chains, 40000),
    (names, 20000),
    (pointers, 20000),
    (statics, 20000),
    (options_of_struct, 40000),
    (options_of_chains, 40000),
    (options_of_cases, 40000),
    (scopes, 40000),
    (entries, 40000),
    (pieces, 40000),
]


def write(path, lines):
    with open(path, 'w') as out:
        out.write('rdbg-layout 1\ntarget 8\n')
        for line in lines:
            out.write(line + '\n')


def main():
    with measure.program_and_folder(__doc__) as (program, folder):
        path = os.path.join(folder, 'layout')
        for shape, most in SHAPES:
            times = []
            for n in (most // 2, most):
                write(path, shape(n))
                times.append(measure.best([program, 'check', path], b'lawful\n')[0])
            print('%-20s %6d %7.3f s   %6d %7.3f s   ratio %.2f' % (
                shape.__name__, most // 2, times[0], most, times[1], times[1] / times[0]))


if __name__ == '__main__':
    main()
