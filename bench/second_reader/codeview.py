#!/usr/bin/env python3
"""A second reader of CodeView's records, written from docs/codeview.md after rdbg's reader had been read; it shares no code with it.

    bench/second_reader/codeview.py types|symbols HEX

It prints the records of `.debug$T` or `.debug$S` as the tables of crates/format_tables tell them, or the first error.
"""
import sys


class Refused(Exception):
    def __init__(self, offset, rule):
        self.offset, self.rule = offset, rule

    def __str__(self):
        return 'offset %d breaks rule %d' % (self.offset, self.rule)


class Cut:
    def __init__(self, data, at, end):
        self.data, self.at, self.end = data, at, end

    def left(self):
        return self.end - self.at

    def num(self, n, signed=False, item=None):
        if self.left() < n:
            raise Refused(self.at if item is None else item, 10)
        self.at += n
        return int.from_bytes(self.data[self.at - n:self.at], 'little', signed=signed)

    def numeric(self):
        item = self.at
        n = self.num(2)
        if n < 0x8000:
            return n
        leaf = {0x8000: (1, True), 0x8001: (2, True), 0x8002: (2, False), 0x8003: (4, True), 0x8004: (4, False), 0x8009: (8, True), 0x800a: (8, False)}.get(n)
        if leaf is None:
            raise Refused(item, 13)
        return self.num(leaf[0], leaf[1], item)

    def name(self):
        item = self.at
        zero = self.data.find(b'\0', self.at, self.end)
        if zero < 0:
            raise Refused(item, 12)
        text = self.data[item:zero]
        self.at = zero + 1
        try:
            shown = text.decode('utf-8')
        except UnicodeDecodeError:
            raise Refused(item, 14)
        if len(text) > 65535:
            raise Refused(item, 14)
        return '"%s"' % shown


def signature(cut):
    if cut.num(4) != 4:
        raise Refused(0, 50)


def record(cut):
    """the place and the contents of the record at the cut's place"""
    item = cut.at
    length = cut.num(2)
    if length > cut.left():
        raise Refused(item, 10)
    if length < 2:
        raise Refused(item, 51)
    inner = Cut(cut.data, cut.at, cut.at + length)
    cut.at += length
    return item, inner


def fields(cut, form):
    """the fields of a form: a letter each for numbers of 1, 2, 4 bytes, decimal or hexadecimal, numeric leaves and names"""
    said = []
    for f in form:
        if f == 'n':
            said.append(str(cut.numeric()))
        elif f == 's':
            said.append(cut.name())
        elif f == 'i':
            said.append(str(cut.num(4, True)))
        elif f in 'bwd':
            said.append(str(cut.num({'b': 1, 'w': 2, 'd': 4}[f])))
        else:
            said.append('%#x' % cut.num({'B': 1, 'W': 2, 'D': 4}[f]))
    return said


TYPES = {0x1001: ('modifier', 'DW'), 0x1002: ('pointer', 'DD'), 0x1008: ('procedure', 'DBBwD'), 0x1503: ('array', 'DDns'),
         0x1505: ('structure', 'wWDDDns'), 0x1506: ('union', 'wWDns'), 0x1507: ('enum', 'wWDDs')}
MEMBERS = {0x1404: ('index', 'wD'), 0x1502: ('enumerate', 'Wns'), 0x150d: ('field', 'WDns'), 0x150e: ('static', 'WDs'), 0x1510: ('nest', 'wDs')}
PROC = 'ddddddDdwBs'
SYMBOLS = {0x6: ('end', ''), 0x114f: ('proc-id-end', ''), 0x1012: ('frame', 'dddddwD'), 0x1103: ('block', 'ddddws'), 0x1107: ('constant', 'Dns'),
           0x1108: ('udt', 'Ds'), 0x110c: ('ldata', 'Ddws'), 0x110d: ('gdata', 'Ddws'), 0x110f: ('lproc', PROC), 0x1110: ('gproc', PROC),
           0x1146: ('lproc-id', PROC), 0x1147: ('gproc-id', PROC), 0x113e: ('local', 'DWs'), 0x1141: ('range-reg', 'wWr'), 0x1142: ('range-frame', 'ir'),
           0x1143: ('range-subfield', 'wWDr'), 0x1144: ('range-frame-full', 'i'), 0x1145: ('range-rel', 'wWir')}


def member(cut):
    item = cut.at
    low = cut.num(1)
    if low > 0xf0:
        if cut.left() < low - 0xf1:
            raise Refused(item, 10)
        cut.at += low - 0xf1
        return ''
    leaf = low + 256 * cut.num(1, item=item)
    if leaf not in MEMBERS:
        raise Refused(item, 52)
    word, form = MEMBERS[leaf]
    return ', ' + ' '.join([word] + fields(cut, form))


def type_record(cut):
    kind = cut.num(2)
    if kind == 0x1203:
        said = 'fields'
        while cut.left():
            said += member(cut)
        return said
    if kind == 0x1201:
        return ' '.join(['arguments'] + ['%#x' % cut.num(4) for _ in range(cut.num(4))])
    if kind not in TYPES:
        return 'other %#x' % kind
    word, form = TYPES[kind]
    at = cut.at
    said = fields(cut, form)
    if kind in (0x1505, 0x1506, 0x1507) and int.from_bytes(cut.data[at + 2:at + 4], 'little') & 0x200:
        said.append(cut.name())
    return ' '.join([word] + said)


def symbol(cut):
    kind = cut.num(2)
    if kind not in SYMBOLS:
        return 'other %#x' % kind
    word, form = SYMBOLS[kind]
    said = fields(cut, form.rstrip('r'))
    if form.endswith('r'):
        said += fields(cut, 'dww')
        while cut.left() >= 4:
            said.append('%d+%d' % (cut.num(2), cut.num(2)))
    return ' '.join([word] + said)


def read_types(data):
    cut, said = Cut(data, 0, len(data)), []
    signature(cut)
    while cut.left():
        item, inner = record(cut)
        said.append('%d %s' % (item, type_record(inner)))
    return said


def read_symbols(data):
    cut, said = Cut(data, 0, len(data)), []
    signature(cut)
    while cut.left():
        item = cut.at
        kind, length = cut.num(4), cut.num(4, item=item)
        if length > cut.left():
            raise Refused(item, 10)
        inner = Cut(data, cut.at, cut.at + length)
        if kind == 0xf1:
            while inner.left():
                at, contents = record(inner)
                said.append('%d %s' % (at, symbol(contents)))
        cut.at = min(cut.at + length + -length % 4, len(data))
    return said


def told(reader, data):
    try:
        return '; '.join(reader(data)) or 'none'
    except Refused as e:
        return str(e)


def main():
    reader = {'types': read_types, 'symbols': read_symbols}[sys.argv[1]]
    print(told(reader, bytes.fromhex(sys.argv[2])))


if __name__ == '__main__':
    main()
