#!/usr/bin/env python3
"""Writes the bundle file of an ELF file's DWARF sections.

    tools/elf_bundle.py [--only NAME] [--list] FILE OUT

OUT gets the eight sections that rdbg reads, as docs/bundle.md says; a section that FILE lacks is empty.  `--only NAME` keeps the DWARF 5
units of that name alone, since one unit of an older version makes rdbg refuse the whole bundle: the standard library that rustc 1.95 comes
with is DWARF 4.  A unit's name is the `name` of its first entry; rustc's is the path of the crate's root file, then `/@/` and the name
of the part of the crate, and NAME may leave out that second half.  `--list` prints the version and the name of each unit, and writes
nothing.  Relocations are not applied, so FILE is a program or a shared library and not an object file.
"""
import argparse
import struct
import sys

SECTIONS = ('.debug_abbrev', '.debug_info', '.debug_str', '.debug_line_str', '.debug_str_offsets', '.debug_addr', '.debug_loclists', '.debug_rnglists')
COMPRESSED = 0x800          # SHF_COMPRESSED
NO_BITS = 8                 # SHT_NOBITS
NAME, STR_OFFSETS_BASE = 0x03, 0x72     # attributes
IMPLICIT_CONST, INDIRECT = 0x21, 0x16   # forms
TEXT = {0x08: 'inline', 0x0e: '.debug_str', 0x1f: '.debug_line_str'}
INDEX = {0x1a: 0, 0x25: 1, 0x26: 2, 0x27: 3, 0x28: 4}
# the bytes of a value of the other forms: a number, `leb`, or the width of a block's length
SIZES = {0x01: 8, 0x0b: 1, 0x05: 2, 0x06: 4, 0x07: 8, 0x1e: 16, 0x0c: 1, 0x19: 0, 0x21: 0, 0x10: 4, 0x11: 1, 0x12: 2, 0x13: 4, 0x14: 8,
         0x17: 4, 0x0e: 4, 0x1f: 4, 0x29: 1, 0x2a: 2, 0x2b: 3, 0x2c: 4, 0x25: 1, 0x26: 2, 0x27: 3, 0x28: 4, 0x20: 8}
LEBS = (0x0d, 0x0f, 0x15, 0x1a, 0x1b, 0x22, 0x23)
BLOCKS = {0x0a: 1, 0x03: 2, 0x04: 4, 0x09: 0, 0x18: 0}


class Broken(Exception):
    """What is wrong with the file, in words for its user."""


def sections_of(data):
    """The sections of an ELF64 file, by their names."""
    if data[:6] != b'\x7fELF\x02\x01':
        raise Broken('no little-endian ELF64 file')
    table, = struct.unpack_from('<Q', data, 40)
    size, count, names_at = struct.unpack_from('<HHH', data, 58)
    headers = [struct.unpack_from('<IIQQQQ', data, table + size * i) for i in range(count)]
    if not headers:
        raise Broken('no sections')
    names = headers[names_at]
    found = {}
    for name, kind, flags, _, offset, length in headers:
        start = names[4] + name
        text = data[start:data.index(b'\0', start)].decode(errors='replace')
        if text in SECTIONS and kind != NO_BITS and text not in found:
            if flags & COMPRESSED:
                raise Broken('%s is compressed: try objcopy --decompress-debug-sections' % text)
            found[text] = data[offset:offset + length]
    return {name: found.get(name, b'') for name in SECTIONS}


def leb(data, at):
    """An unsigned LEB128 number, and the place after it."""
    number = shift = 0
    while True:
        byte = data[at]
        number |= (byte & 0x7f) << shift
        at, shift = at + 1, shift + 7
        if byte < 0x80:
            return number, at


def declaration(table, at, code):
    """The pairs of attribute, form and constant that the table at this offset declares for a code."""
    while True:
        found, at = leb(table, at)
        if found == 0:
            raise Broken('an entry without a declaration')
        _, at = leb(table, at)
        at += 1
        pairs = []
        while True:
            attribute, at = leb(table, at)
            form, at = leb(table, at)
            if form == IMPLICIT_CONST:
                _, at = leb(table, at)      # its sign is of no matter here
            if (attribute, form) == (0, 0):
                break
            pairs.append((attribute, form))
        if found == code:
            return pairs


def past(form, info, at):
    """The place after a value of this form."""
    if form in SIZES:
        return at + SIZES[form]
    if form in LEBS:
        return leb(info, at)[1]
    if form in BLOCKS:
        width = BLOCKS[form]
        length, at = (int.from_bytes(info[at:at + width], 'little'), at + width) if width else leb(info, at)
        return at + length
    if form == 0x08:
        return info.index(b'\0', at) + 1
    raise Broken('a form that is not known: 0x%x' % form)


def text_at(data, at):
    return data[at:data.index(b'\0', at)].decode(errors='replace')


def name_of(sections, at, version):
    """The name of the unit whose header is at this offset, or the empty text."""
    info = sections['.debug_info']
    if version == 5:
        table, = struct.unpack_from('<I', info, at + 8)
        at += 12
    else:
        table, = struct.unpack_from('<I', info, at + 6)
        at += 11
    code, at = leb(info, at)
    base, index, name = 8, None, ''
    for attribute, form in declaration(sections['.debug_abbrev'], table, code) if code else ():
        after = past(form, info, at)
        if attribute == STR_OFFSETS_BASE:
            base = int.from_bytes(info[at:after], 'little')
        if attribute == NAME and form == 0x08:
            name = text_at(info, at)
        elif attribute == NAME and form in TEXT:
            name = text_at(sections[TEXT[form]], int.from_bytes(info[at:after], 'little'))
        elif attribute == NAME and form in INDEX:
            index = int.from_bytes(info[at:after], 'little') if INDEX[form] else leb(info, at)[0]
        at = after
    if index is not None:
        start, = struct.unpack_from('<I', sections['.debug_str_offsets'], base + 4 * index)
        name = text_at(sections['.debug_str'], start)
    return name


def units_of(sections):
    """Each unit of `.debug_info`: where it starts and ends, its version and its name."""
    info, at, units = sections['.debug_info'], 0, []
    while at < len(info):
        length, version = struct.unpack_from('<IH', info, at)
        if length >= 0xfffffff0:
            raise Broken('a unit of 64-bit DWARF, at 0x%x' % at)
        name = name_of(sections, at, version) if version in (2, 3, 4, 5) else ''
        units.append((at, at + 4 + length, version, name))
        at += 4 + length
    return units


def is_of(name, wanted):
    return name == wanted or name.startswith(wanted + '/@/')


def bundle(sections):
    """The bytes of the bundle file: form 1, pointers of 8 bytes."""
    parts = [b'RVBUNDL1', struct.pack('<BBH', 1, 8, 0)]
    for name in SECTIONS:
        parts += struct.pack('<I', len(sections[name])), sections[name]
    return b''.join(parts)


def main():
    words = argparse.ArgumentParser(description='Writes the bundle file of an ELF file\'s DWARF sections.')
    words.add_argument('--only', metavar='NAME', help='keep the DWARF 5 units of this name alone')
    words.add_argument('--list', action='store_true', help='print the version and the name of each unit')
    words.add_argument('file', metavar='FILE')
    words.add_argument('out', metavar='OUT', nargs='?')
    given = words.parse_args()
    if given.out is None and not given.list:
        words.error('OUT is missing')
    with open(given.file, 'rb') as file:
        sections = sections_of(file.read())
    if given.list or given.only is not None:
        units = units_of(sections)
    if given.list:
        for _, _, version, name in units:
            print(version, name)
        return
    if given.only is not None:
        kept = [(start, end) for start, end, version, name in units if version == 5 and is_of(name, given.only)]
        if not kept:
            raise Broken('no unit of DWARF 5 has this name; --list prints the names')
        sections['.debug_info'] = b''.join(sections['.debug_info'][start:end] for start, end in kept)
    with open(given.out, 'wb') as file:
        file.write(bundle(sections))


if __name__ == '__main__':
    try:
        main()
    except Broken as why:
        sys.exit('elf_bundle.py: %s' % why)
    except (struct.error, IndexError, ValueError):
        sys.exit('elf_bundle.py: the file ends within a part of it, or a number in it leads past its end')
