#!/usr/bin/env python3
"""Compares the lines of crates/cases/data/entries.cases with the second reader: places, what is passed over, own and joined texts, and which entry has the name."""
import os
import re
import sys

import dwarf

FILE = os.path.join(os.path.dirname(os.path.abspath(__file__)), '..', '..', 'crates', 'cases', 'data', 'entries.cases')
SECTIONS = ('.debug_abbrev', '.debug_info', '.debug_str', '.debug_str_offsets')


class Entries(dwarf.Model):
    """the entries, with no further step"""

    def __init__(self, sections):
        self.s, self.with_functions = dict(sections, **{'.debug_line_str': b'', '.debug_addr': b''}), True
        self.units, self.entries = dwarf.pass_a(self.s)
        self.at = {e.offset: e for e in self.entries}
        for u in self.units:
            base = u.root.attrs.get(0x72)
            u.bases = {0x72: base[3] if base and base[2] == 'sec_offset' else None}
        for e in self.entries:
            self.passed(e)

    def passed_itself(self, e):
        return dwarf.Model.passed_itself(self, e) or e.tag in (0x34, 0x05) and self.bearer(e) == ' of none'

    def text_of(self, e, attr):
        """a text, empty where there is none"""
        try:
            return dwarf.Model.text_of(self, e, attr) if attr in e.attrs else ''
        except dwarf.Refused:
            return ''

    def bearer(self, e):
        try:
            found, more = self.found(e, dwarf.NAME)
        except dwarf.Refused:
            return ' of none'
        return ' too far' if more else ' of none' if found is None else ' of %d' % found.n

    def agrees(self, e, line):
        own, up = self.text_of(e, dwarf.NAME), '' if e.up is None else ' under %d' % e.up.n
        joined = self.joined(e, own)
        ends = {'joined': ' joined "%s"' % joined, 'long': ' too long' if len(joined.encode()) > 65535 else None}
        kind = 'joined' if ' joined "' in line else 'long' if line.endswith(' too long') else None
        return (line.startswith('%d%s at %d in %d ' % (e.n, up, e.offset, e.unit.start)) and (' passed' in line.split('"')[0]) == e.passed
                and '"%s"%s' % (own, self.bearer(e)) in line and (kind is None or ends[kind] is not None and line.endswith(ends[kind])))


def lines_of(word, rest):
    """the bytes that a directive adds to a file"""
    if word == '@hex':
        return bytes.fromhex(rest)
    if word == '@line':
        return re.sub(r'<<(.)\*(\d+)>>', lambda m: m.group(1) * int(m.group(2)), rest).encode() + b'\n'
    first, last, text = rest.split(' ', 2)
    return b''.join(text.replace('%-', str(i - 1)).replace('%', str(i)).encode() + b'\n' for i in range(int(first), int(last)))


def main():
    files, block, rows, wrong = {}, None, 0, 0
    for line in open(FILE, encoding='utf-8').read().split('\n'):
        word, _, rest = line.partition(' ')
        if word == '@file':
            block = rest
            files[block] = b''
        elif word == '@bytes':
            block = None
        elif word == '@cut':
            files[block] = files[block][:-1]
        elif word in ('@hex', '@line', '@lines'):
            files[block] += lines_of(word, rest)
        elif not line or line.startswith('#'):
            continue
        elif block is not None:
            files[block] += line.encode() + b'\n'
        elif ' | file ' in line:
            words, wanted = line.split(' | file ')
            model = Entries(dict(zip(SECTIONS, (files.get(w, b'') for w in words.split(' ')))))
            said = files[wanted].decode().split('\n')[:-1]
            rows += 1
            if len(said) != len(model.entries) or not all(map(model.agrees, model.entries, said)):
                wrong += 1
                print([s for e, s in zip(model.entries, said) if not model.agrees(e, s)])
    print('entries.cases: %d rows, %d differ' % (rows, wrong))
    return 1 if wrong else 0


if __name__ == '__main__':
    sys.exit(main())
