#!/usr/bin/env python3
"""Time and peak memory of `rdbg show B` for DWARF bundles of n and 2n entries of one shape.

    bench/bundles.py PROGRAM [DIRECTORY]

Prints for each row the best of three times for n and for 2n, their ratio, and the peak memory as a multiple of the bundle's size. Linear time
has a ratio near 2. Where readelf is installed, its time for `--debug-dump=info` on the same sections stands beside the row of many units.
"""
import os
import shutil
import subprocess
import time

import measure
from tables import leb

U32 = b'\x02u32\0\x07\x04'
# codes: 1 compile_unit, 2 base_type, 3 variable, 4 structure_type with members, 5 member, 6 pointer_type, 7 namespace, 8 variant_part, 9 the tag's
# member, 10 variant, 11 a variant's member, 12 structure_type without members, 13 variable without children over a forward link
TABLE = bytes.fromhex('011101130b0000 022400 0308 3e0b 0b0b 0000 033400 0308 4913 0218 0000 041301 0308 0b06 88010b 0000 050d00 0308 4913 3806 0000 060f00 4913 0000 '
                      '073901 0308 0000 083301 1513 0000 090d00 4913 380b 0000 0a1901 1606 0000 0b0d00 0308 4913 0000 0c1300 0308 0b0b 88010b 0000'.replace(' ', '')) + b'\0'


SECTIONS = ('.debug_abbrev', '.debug_info', '.debug_str', '.debug_line_str', '.debug_str_offsets', '.debug_addr', '.debug_loclists', '.debug_rnglists')


def bundle(sections):
    """The bundle file of these sections."""
    out = [b'RVBUNDL1\1\x08\0\0']
    for name in SECTIONS:
        data = sections.get(name, b'')
        out += [len(data).to_bytes(4, 'little'), data]
    return b''.join(out)


def word(i):
    return b'v%d\0' % i


class Unit:
    """The bytes of one unit, whose references count from its start."""

    def __init__(self, table=0):
        self.out = bytearray(b'\0\0\0\0\x05\0\x01\x08' + table.to_bytes(4, 'little') + b'\x01\x1c')
        self.u32 = self.put(U32)

    def put(self, data):
        at = len(self.out)
        self.out += data
        return at

    def ended(self):
        self.out += b'\0'
        self.out[0:4] = (len(self.out) - 4).to_bytes(4, 'little')
        return bytes(self.out)


def ref(at):
    return at.to_bytes(4, 'little')


def static(unit, i, ty):
    unit.put(b'\x03' + word(i) + ref(ty) + b'\x09\x03' + (8 * i).to_bytes(8, 'little'))


def statics(n):
    """n statics of one unit."""
    unit = Unit()
    for i in range(n):
        static(unit, i, unit.u32)
    return TABLE, unit.ended()


def fields(n):
    """One struct of n fields."""
    unit = Unit()
    unit.put(b'\x04S\0' + (4 * n).to_bytes(4, 'little') + b'\x04')
    for i in range(n):
        unit.put(b'\x05' + word(i) + ref(unit.u32) + (4 * i).to_bytes(4, 'little'))
    unit.put(b'\0')
    return TABLE, unit.ended()


def variants(n):
    """One enum of n variants, each with a structure of its own of no fields."""
    unit = Unit()
    unit.put(b'\x04E\0' + (4).to_bytes(4, 'little') + b'\x04')
    part = unit.put(b'\x08')
    unit.put(ref(part + 5))
    unit.put(b'\x09' + ref(unit.u32) + b'\0')
    links = []
    for i in range(n):
        unit.put(b'\x0a' + i.to_bytes(4, 'little') + b'\x0b' + word(i))
        links.append(unit.put(b'\0\0\0\0'))
        unit.put(b'\0')
    unit.put(b'\0')
    for i, link in enumerate(links):
        at = unit.put(b'\x0c' + word(i) + b'\x04\x04')
        unit.out[link:link + 4] = ref(at)
    unit.put(b'\0')
    return TABLE, unit.ended()


def forward(n):
    """n pointers, each to the one after it."""
    unit = Unit()
    at = len(unit.out)
    for i in range(n):
        unit.put(b'\x06' + (ref(at + 5 * (i + 1)) if i < n - 1 else ref(unit.u32)))
    return TABLE, unit.ended()


def namespaces(n):
    """n statics, in 200 namespaces, one in the other."""
    unit = Unit()
    for i in range(200):
        unit.put(b'\x07n\0')
    for i in range(n):
        static(unit, i, unit.u32)
    unit.put(b'\0' * 200)
    return TABLE, unit.ended()


def units(n):
    """n entries of units of 1,000, which share a table."""
    out = []
    for k in range(n // 1000):
        unit = Unit()
        for i in range(998):
            static(unit, 998 * k + i, unit.u32)
        out.append(unit.ended())
    return TABLE, b''.join(out)


def codes(n):
    """An abbreviation table of n codes, each of one static."""
    unit = Unit()
    table = [TABLE[:-1]]
    for i in range(n):
        code = leb(100 + i)
        table.append(code + bytes.fromhex('3400 0308 4913 0218 0000'.replace(' ', '')))
        unit.put(code + word(i) + ref(unit.u32) + b'\x09\x03' + (8 * i).to_bytes(8, 'little'))
    table.append(b'\0')
    return b''.join(table), unit.ended()


def elf(path, sections):
    """An object file of these sections, without a program."""
    names, offsets, body = b'\0', [], b''
    for name, data in sections + [('.shstrtab', None)]:
        offsets.append((len(names), name, data))
        names += name.encode() + b'\0'
    heads = b'\0' * 64
    at = 64
    for index, name, data in offsets:
        data = names if data is None else data
        kind = 3 if name == '.shstrtab' else 1
        heads += index.to_bytes(4, 'little') + kind.to_bytes(4, 'little') + bytes(16) + at.to_bytes(8, 'little') + len(data).to_bytes(8, 'little') + bytes(8) + (1).to_bytes(8, 'little') + bytes(8)
        body += data
        at += len(data)
    count = len(offsets) + 1
    head = (b'\x7fELF\x02\x01\x01' + bytes(9) + (1).to_bytes(2, 'little') + (62).to_bytes(2, 'little') + (1).to_bytes(4, 'little') + bytes(16) + at.to_bytes(8, 'little')
            + bytes(4) + (64).to_bytes(2, 'little') + bytes(4) + (64).to_bytes(2, 'little') + count.to_bytes(2, 'little') + (count - 1).to_bytes(2, 'little'))
    with open(path, 'wb') as out:
        out.write(head + body + heads)


ROWS = ((statics, 200_000), (units, 500_000), (fields, 20_000), (fields, 100_000), (variants, 20_000), (variants, 100_000), (forward, 50_000), (forward, 200_000), (namespaces, 50_000), (codes, 50_000))


def main():
    with measure.program_and_folder(__doc__) as (program, folder):
        print('%-60s %9s %9s %6s %7s' % ('shape', 'n', '2n', 'ratio', 'memory'))
        for shape, n in ROWS:
            took = []
            for count in (n, 2 * n):
                table, info = shape(count)
                path = os.path.join(folder, 'bundle')
                with open(path, 'wb') as out:
                    out.write(bundle({'.debug_abbrev': table, '.debug_info': info}))
                took.append(measure.best([program, 'show', path], b'rdbg-layout 1\n'))
                size = os.path.getsize(path)
            (one, _), (two, peak) = took
            print('%-60s %7.2f s %7.2f s %6.2f %6.1fx  (2n = %d, %.1f MB)' % (shape.__doc__, one, two, two / max(one, 0.001), peak / size, 2 * n, size / 1e6))
            if shape is units and shutil.which('readelf'):
                elf(path, [('.debug_abbrev', table), ('.debug_info', info)])
                began = time.monotonic()
                subprocess.run(['readelf', '--debug-dump=info', path], stdout=subprocess.DEVNULL, stderr=subprocess.DEVNULL)
                print('%-60s %27.2f s' % ('  readelf --debug-dump=info', time.monotonic() - began))


if __name__ == '__main__':
    main()
