#!/usr/bin/env python3
"""Compares the cases of units and records with the second readers, and writes those of changed bytes.

    bench/second_reader/cases.py             compares the rows of crates/cases/data/units.cases and records.cases
    bench/second_reader/cases.py --write     writes units_bytes.cases, records_bytes.cases and bundles_bytes.cases beside them

The rows of the files that it writes are small good sections, of which each byte in turn is 0, ff, one more and one less; of a bundle, what `show` prints.
"""
import os
import sys

import codeview
import dwarf

DATA = os.path.join(os.path.dirname(os.path.abspath(__file__)), '..', '..', 'crates', 'cases', 'data')
HEAD = '# Written by bench/second_reader/cases.py: a good section, and each of its bytes in turn as 0, ff, one more and one less.\n# What is wanted is what the second reader says, which was written from the documents.\n'


def units(abbrev, info):
    """what is wanted of units"""
    try:
        found, entries = dwarf.pass_a({'.debug_abbrev': abbrev, '.debug_info': info})
    except dwarf.Refused as e:
        return 'offset %d of %s breaks rule %d' % (e.offset, e.section, e.rule)
    said = []
    for unit in found:
        at = unit.start
        end = at + 4 + int.from_bytes(info[at:at + 4], 'little')
        table = int.from_bytes(info[at + 8:at + 12], 'little')
        text = '%d to %d, table %d of %d:' % (at, end, table, len(dwarf.read_table(abbrev, table)))
        for e in entries:
            if e.unit is unit:
                under = '' if e.up is None else ' under %d' % e.up.n
                text += ' %d%s at %d %s' % (e.n, under, e.offset, '%#04x' % e.tag)
        said.append(text)
    return '; '.join(said) or 'none'


READERS = {'units': units, 'type-records': lambda b: codeview.told(codeview.read_types, b), 'symbol-records': lambda b: codeview.told(codeview.read_symbols, b)}


def compare(name):
    """compares the rows of a file; how many there are and how many differ"""
    files, table, block, rows, wrong = {}, None, None, 0, 0
    for line in open(os.path.join(DATA, name), encoding='utf-8').read().split('\n'):
        if line.startswith('@file '):
            block, table = line[6:], None
            files[block] = b''
        elif line.startswith('@hex '):
            files[block] += bytes.fromhex(line[5:])
        elif line.startswith('@bytes '):
            table, block = line[7:], None
        elif line and not line.startswith(('#', '@')) and table in READERS:
            words, wanted = line.split(' | ', 1)
            came = READERS[table](*[files[w] if w in files else b'' if w == '-' else bytes.fromhex(w) for w in words.split(' ')])
            rows += 1
            if came != wanted:
                wrong += 1
                print('%s: %s\n  wanted %s\n  came   %s' % (name, words, wanted, came))
    print('%s: %d rows, %d differ' % (name, rows, wrong))
    return wrong


def changed(data):
    """the data with each byte in turn changed"""
    seen = set()
    for at, byte in enumerate(data):
        for other in (0, 0xff, byte + 1 & 0xff, byte - 1 & 0xff):
            new = data[:at] + bytes([other]) + data[at + 1:]
            if new != data and new not in seen:
                seen.add(new)
                yield new
    for end in range(len(data)):
        if data[:end] not in seen:
            yield data[:end]


# A unit with a base type, and a unit with nothing but its first entry; both have one table.
ABBREV = bytes.fromhex('01 11 01 00 00  02 24 00 03 08 0b 0b 00 00  00')
INFO = bytes.fromhex('0f000000 0500 01 08 00000000 01 02 753800 01 00  0a000000 0500 01 08 00000000 01 00')
# A pointer, and a field list with a field, a pad, an enumerator and a pad; an enumeration with a unique name, and two bytes after it.
GOOD_TYPES = ('04000000 0a00 0210 74000000 2c000100  1a00 0312 0d15 0300 74000000 0400 6100 f1 0215 0300 0080ff 6200 f2f1',
              '04000000 1400 0715 0100 0002 74000000 00100000 4500 7500 0000')
# A local in a register but for a gap, and a subsection that is passed over, with its pad; a procedure and its end.
GOOD_SYMBOLS = ('04000000 f1000000 20000000  0a00 3e11 74000000 0100 7800  1200 4111 4801 0000 10000000 0100 0800 0200 0100  f4000000 01000000 aa 000000',
                '04000000 f1000000 2d000000  2700 1011 00000000 01000000 02000000 03000000 04000000 05000000 00100000 06000000 0100 00 6600  0200 0600')


# A static whose type is a base type; and the same with its name by an index.
STATIC = {
    '.debug_abbrev': '01 11 01 13 05 10 17 00 00  02 24 00 03 08 3e 0b 0b 0b 00 00  03 34 00 03 08 49 13 02 18 00 00  00',
    '.debug_info': '28000000 0500 01 08 00000000  01 1c00 00000000  02 75333200 07 04  03 4e00 13000000 09 030010000000000000  00',
}
INDEXED = {
    '.debug_abbrev': '01 11 01 72 17 00 00  02 24 00 03 08 3e 0b 0b 0b 00 00  03 34 00 03 25 49 13 02 18 00 00  00',
    '.debug_info': '25000000 0500 01 08 00000000  01 08000000  02 75333200 07 04  03 00 11000000 09 030010000000000000  00',
    '.debug_str': '4e00',
    '.debug_str_offsets': '08000000 0500 0000 00000000',
}


def bundle(sections):
    """the bundle file of sections"""
    out = b'RVBUNDL1\1\x08\0\0'
    for name in dwarf.SECTIONS:
        data = sections.get(name, b'')
        out += len(data).to_bytes(4, 'little') + data
    return out


def put_shown(f, name, data):
    """puts a case: what `show` prints of a bundle"""
    shown = dwarf.show(data)
    f.write('@case %s\n@file b\n@hex %s\n' % (name, data.hex()))
    if shown.startswith('rdbg: '):
        f.write('@stop 1 %s\n' % shown[6:])
    else:
        f.write('@out\n%s\n' % shown)


def main():
    if sys.argv[1:] == ['--write']:
        write()
        return 0
    return 1 if compare('units.cases') + compare('records.cases') else 0


def write():
    with open(os.path.join(DATA, 'units_bytes.cases'), 'w', encoding='utf-8') as f:
        f.write(HEAD + '\n@file a\n@hex %s\n@file i\n@hex %s\n@bytes units\na i | %s\n# The units.\n' % (ABBREV.hex(), INFO.hex(), units(ABBREV, INFO)))
        for new in changed(INFO):
            f.write('a %s | %s\n' % (new.hex() or '-', units(ABBREV, new)))
        f.write('# The abbreviations.\n')
        for new in changed(ABBREV):
            f.write('%s i | %s\n' % (new.hex() or '-', units(new, INFO)))
    with open(os.path.join(DATA, 'records_bytes.cases'), 'w', encoding='utf-8') as f:
        f.write(HEAD)
        for kind, sections in (('type-records', GOOD_TYPES), ('symbol-records', GOOD_SYMBOLS)):
            f.write('\n@bytes %s\n' % kind)
            for text in sections:
                data = bytes.fromhex(text)
                f.write('# %s\n%s | %s\n' % (text, data.hex(), READERS[kind](data)))
                for new in changed(data):
                    f.write('%s | %s\n' % (new.hex() or '-', READERS[kind](new)))
    with open(os.path.join(DATA, 'bundles_bytes.cases'), 'w', encoding='utf-8') as f:
        f.write(HEAD.replace('a good section, and each of its bytes', 'good sections, and each byte of them') + '@words show b\n')
        for title, texts, names in (('A static.', STATIC, ('.debug_abbrev', '.debug_info')), ('Its name by an index.', INDEXED, ('.debug_info', '.debug_str', '.debug_str_offsets'))):
            sections = {name: bytes.fromhex(text) for name, text in texts.items()}
            f.write('\n# %s\n' % title)
            put_shown(f, 'as it is', bundle(sections))
            for name in names:
                data = sections[name]
                for at, byte in enumerate(data):
                    for other in sorted({0, 0xff, byte + 1 & 0xff, byte - 1 & 0xff} - {byte}):
                        new = data[:at] + bytes([other]) + data[at + 1:]
                        put_shown(f, '%s %d as %02x' % (name, at, other), bundle({**sections, name: new}))


if __name__ == '__main__':
    sys.exit(main())
