#!/usr/bin/env python3
"""A second reader of DWARF bundles, written from the documents and not from rdbg's code: types and statics.

    bench/second_reader/dwarf.py [--without-functions] BUNDLE

It prints the set that BUNDLE describes as a layout file has it, or the first error.  Functions are not read: one with code ends the reading with
rule 99, or is passed over with all below it where `--without-functions` is given.
"""
import argparse

import names

SECTIONS = ('.debug_abbrev', '.debug_info', '.debug_str', '.debug_line_str', '.debug_str_offsets', '.debug_addr', '.debug_loclists', '.debug_rnglists')


class Refused(Exception):
    def __init__(self, section, offset, rule):
        self.section, self.offset, self.rule = section, min(offset, 2 ** 64 - 1), rule

    def __str__(self):
        return 'rdbg: outside %s %d rule %d' % (self.section, self.offset, self.rule)


class Cut:
    def __init__(self, data, at, end, section):
        self.data, self.at, self.end, self.section = data, at, end, section

    def fault(self, at, rule):
        raise Refused(self.section, at, rule)

    def take(self, n, at=None):
        at = self.at if at is None else at
        if self.end - self.at < n:
            self.fault(at, 10)
        out = self.data[self.at:self.at + n]
        self.at += n
        return out

    def num(self, n, at=None):
        return int.from_bytes(self.take(n, at), 'little')

    def leb(self, signed=False, item=None):
        start = self.at if item is None else item
        n = 0
        for i in range(10):
            if self.at >= self.end:
                self.fault(start, 10)
            b = self.data[self.at]
            self.at += 1
            if i == 9 and b not in ((0, 0x7f) if signed else (0, 1)):
                self.fault(start, 11)
            n |= (b & 0x7f) << (7 * i)
            if b < 0x80:
                if signed and b & 0x40:
                    n -= 1 << (7 * (i + 1))
                if signed:
                    n = (n + 2 ** 63) % 2 ** 64 - 2 ** 63
                return n
        self.fault(start, 11)

    def zero_text(self, item=None):
        start = self.at if item is None else item
        end = self.data.find(b'\0', self.at, self.end)
        if end < 0:
            self.fault(start, 12)
        out = self.data[self.at:end]
        self.at = end + 1
        return out


CLASS = {}
for cls, forms in {'address': (1, 0x1b, 0x29, 0x2a, 0x2b, 0x2c), 'constant': (0xb, 5, 6, 7, 0x1e, 0xf, 0xd, 0x21), 'string': (8, 0xe, 0x1f, 0x1a, 0x25, 0x26, 0x27, 0x28),
                   'reference': (0x11, 0x12, 0x13, 0x14, 0x15, 0x10), 'block': (0xa, 3, 4, 9), 'expr': (0x18,), 'list': (0x17, 0x22, 0x23), 'flag': (0xc, 0x19)}.items():
    for f in forms:
        CLASS[f] = cls

ADDRX = {0x1b: 0, 0x29: 1, 0x2a: 2, 0x2b: 3, 0x2c: 4}
STRX = {0x1a: 0, 0x25: 1, 0x26: 2, 0x27: 3, 0x28: 4}


def attr_value(cut, form, fixed):
    """(kind, value) of the attribute here; errors at its first byte."""
    at = cut.at
    if form == 0x01:
        return 'addr', cut.num(8)
    if form in ADDRX:
        return 'addrx', cut.num(ADDRX[form]) if ADDRX[form] else cut.leb()
    if form in STRX:
        return 'strx', cut.num(STRX[form]) if STRX[form] else cut.leb()
    if form in (0xb, 5, 6, 7):
        n = {0xb: 1, 5: 2, 6: 4, 7: 8}[form]
        return 'data%d' % n, cut.num(n)
    if form == 0x1e:
        return 'wide', cut.num(16)
    if form == 0xf:
        return 'udata', cut.leb()
    if form == 0xd:
        return 'sdata', cut.leb(True)
    if form == 0x21:
        return 'sdata', fixed
    if form == 8:
        return 'inline', cut.zero_text()
    if form == 0xe:
        return 'strp', cut.num(4)
    if form == 0x1f:
        return 'line_strp', cut.num(4)
    if form in (0x11, 0x12, 0x13, 0x14):
        return 'ref', cut.num({0x11: 1, 0x12: 2, 0x13: 4, 0x14: 8}[form])
    if form == 0x15:
        return 'ref', cut.leb()
    if form == 0x10:
        return 'ref_addr', cut.num(4)
    if form in (0xa, 3, 4, 9):
        w = {0xa: 1, 3: 2, 4: 4, 9: 0}[form]
        n = cut.num(w) if w else cut.leb()
        return 'block', (cut.at, cut.take(n, at))
    if form == 0x18:
        n = cut.leb()
        return 'expr', (cut.at, cut.take(n, at))
    if form == 0x17:
        return 'sec_offset', cut.num(4)
    if form == 0x22:
        return 'loclistx', cut.leb()
    if form == 0x23:
        return 'rnglistx', cut.leb()
    if form == 0xc:
        return 'flag', cut.num(1) != 0
    if form == 0x19:
        return 'flag', True
    raise AssertionError(form)


class Entry:
    def __init__(self, offset, tag, up, unit):
        self.offset, self.tag, self.up, self.unit = offset, tag, up, unit
        self.below, self.attrs = [], {}     # attrs: the first of each kind, in order: attribute -> (offset, form, kind, value)
        self.order = []


class Unit:
    pass


def read_table(abbrev, at):
    cut = Cut(abbrev, at, len(abbrev), '.debug_abbrev')
    table = {}
    while True:
        here = cut.at
        code = cut.leb()
        if code == 0:
            return table
        if code in table:
            cut.fault(here, 26)
        here = cut.at
        tag = cut.leb()
        if tag == 0:
            cut.fault(here, 26)
        here = cut.at
        children = cut.num(1)
        if children > 1:
            cut.fault(here, 25)
        specs = []
        while True:
            attr = cut.leb()
            here = cut.at
            form = cut.leb()
            if (attr, form) == (0, 0):
                break
            if form not in CLASS:
                cut.fault(here, 28)
            specs.append((attr, form, cut.leb(True) if form == 0x21 else 0))
        table[code] = (tag, children == 1, specs)


def pass_a(sections):
    info, abbrev = sections['.debug_info'], sections['.debug_abbrev']
    units, entries, at = [], [], 0
    while at < len(info):
        cut = Cut(info, at, len(info), '.debug_info')
        length = cut.num(4)
        if length >= 0xfffffff0:
            cut.fault(at, 20)
        if length > len(info) - cut.at:
            cut.fault(at, 10)
        end = cut.at + length
        cut.end = end
        unit = Unit()
        unit.start = at
        for width, rule, good in ((2, 21, 5), (1, 22, 1), (1, 23, 8)):
            here = cut.at
            if cut.num(width) != good:
                cut.fault(here, rule)
        here = cut.at
        table_at = cut.num(4)
        if table_at >= len(abbrev):
            cut.fault(here, 24)
        table = read_table(abbrev, table_at)
        open_, first = [], True
        while first or open_:
            here = cut.at
            code = cut.leb()
            if code == 0:
                if first:
                    cut.fault(here, 27)
                open_.pop()
                continue
            if code not in table:
                cut.fault(here, 27)
            tag, children, specs = table[code]
            if first and tag != 0x11:
                cut.fault(here, 22)
            if len(open_) + 1 > 256:
                cut.fault(here, 29)
            if len(entries) == 8000000:
                cut.fault(here, 30)
            entry = Entry(here, tag, open_[-1] if open_ else None, unit)
            entry.n = len(entries)
            if first:
                unit.root = entry
            if open_:
                open_[-1].below.append(entry)
            entries.append(entry)
            for attr, form, fixed in specs:
                there = cut.at
                kind, value = attr_value(cut, form, fixed)
                if attr not in entry.attrs:
                    entry.attrs[attr] = (there, form, kind, value)
                    entry.order.append(attr)
            if children:
                open_.append(entry)
            first = False
        units.append(unit)
        at = end
    return units, entries


NAME, TYPE, SIZE, ALIGN, LOC, CONST, ORIGIN, SPEC, LOW, HIGH, RANGES, FRAME = 3, 0x49, 0xb, 0x88, 2, 0x1c, 0x31, 0x47, 0x11, 0x12, 0x55, 0x40
ROWS = {
    0x11: {LOW: 'address', 0x72: 'sec', 0x73: 'sec', 0x74: 'sec', 0x8c: 'sec'},
    0x39: {NAME: 'string'},
    0x24: {NAME: 'string', SIZE: 'constant', 0x3e: 'constant'},
    0x13: {NAME: 'string', SIZE: 'constant', ALIGN: 'constant'},
    0x0d: {NAME: 'string', TYPE: 'reference', 0x38: 'constant'},
    0x2f: {NAME: 'string', TYPE: 'reference'},
    0x33: {0x15: 'reference'},
    0x19: {0x16: 'const_block'},
    0x0f: {NAME: 'string', TYPE: 'reference'},
    0x01: {TYPE: 'reference'},
    0x21: {0x37: 'constant'},
    0x04: {NAME: 'string', SIZE: 'constant', TYPE: 'reference'},
    0x28: {NAME: 'string', CONST: 'constant'},
    0x17: {NAME: 'string', SIZE: 'constant', ALIGN: 'constant'},
    0x15: {},
    0x16: {TYPE: 'reference'},
    0x2e: {NAME: 'string', LOW: 'address', HIGH: 'addr_const', RANGES: 'ranges', FRAME: 'location', SPEC: 'reference', ORIGIN: 'reference', 0x3c: 'flag'},
    0x0b: {LOW: 'address', HIGH: 'addr_const', RANGES: 'ranges'},
    0x34: {NAME: 'string', TYPE: 'reference', LOC: 'location', CONST: 'const_block', ORIGIN: 'reference'},
    0x05: {NAME: 'string', TYPE: 'reference', LOC: 'location', CONST: 'const_block', ORIGIN: 'reference'},
}
TYPES = (0x13, 0x0f, 0x01, 0x04, 0x17)
STANDS = TYPES + (0x24, 0x15, 0x16)
INTS = {5: 'i', 7: 'u'}


def fits(want, form):
    cls = CLASS[form]
    if want == 'sec':
        return form == 0x17
    if want == 'const_block':
        return cls in ('constant', 'block')
    if want == 'addr_const':
        return cls in ('address', 'constant')
    if want == 'ranges':
        return form in (0x17, 0x23)
    if want == 'location':
        return cls == 'expr' or form in (0x17, 0x22)
    return cls == want


class Model:
    def __init__(self, sections, with_functions=True):
        self.s, self.with_functions = sections, with_functions
        self.units, self.entries = pass_a(sections)
        self.at = {e.offset: e for e in self.entries}
        for u in self.units:
            a = u.root.attrs
            u.bases = {b: (a[b][3] if b in a and a[b][2] == 'sec_offset' else None) for b in (0x72, 0x73, 0x74, 0x8c)}
        self.live = [e for e in self.entries if not self.passed(e)]
        for e in self.live:
            self.pass_b(e)
        self.pass_c()

    # what is passed over
    def around(self, e):
        """the nearest function or type around an entry"""
        up = e.up
        while up is not None:
            if up.tag == 0x2e:
                return 'function'
            if up.tag in TYPES + (0x24, 0x15, 0x16):
                return 'type'
            up = up.up
        return None

    def below_function(self, e):
        up = e.up
        while up is not None:
            if up.tag == 0x2e:
                return True
            up = up.up
        return False

    def passed(self, e):
        if e.up is not None and getattr(e.up, 'passed', False):
            e.passed = True
        elif e.up is not None and e.up.tag == 0x17:
            e.passed = True
        else:
            e.passed = self.passed_itself(e)
        return e.passed

    def passed_itself(self, e):
        if e.tag not in ROWS:
            return True
        if e.tag == 0x0b:
            return not self.below_function(e)
        if e.tag == 0x05 and self.around(e) != 'function':
            return True
        if e.tag == 0x34 and self.around(e) == 'type':
            return True
        if e.tag in (0x34, 0x05) and 0x03 not in e.attrs and 0x31 not in e.attrs:
            return True
        if e.tag == 0x2e:
            d = e.attrs.get(0x3c)
            if not self.with_functions or d is not None and d[2] == 'flag' and d[3]:
                return True
            return LOW not in e.attrs and RANGES not in e.attrs
        return False

    # pass B
    def text_of(self, e, attr):
        at, form, kind, value = e.attrs[attr]
        if CLASS[form] != 'string':
            raise Refused('.debug_info', at, 33)
        if kind == 'inline':
            section, where, data = '.debug_info', at, value
        else:
            if kind == 'strx':
                base = e.unit.bases[0x72]
                offsets = self.s['.debug_str_offsets']
                if base is None or base + 4 * value + 4 > len(offsets):
                    raise Refused('.debug_info', at, 31)
                place = int.from_bytes(offsets[base + 4 * value:base + 4 * value + 4], 'little')
                section = '.debug_str'
            else:
                place, section = value, '.debug_str' if kind == 'strp' else '.debug_line_str'
            if place >= len(self.s[section]):
                raise Refused('.debug_info', at, 31)
            where = place
            data = Cut(self.s[section], place, len(self.s[section]), section).zero_text()
        try:
            data.decode()
        except UnicodeDecodeError:
            raise Refused(section, where, 14)
        if len(data) > 65535:
            raise Refused(section, where, 14)
        return data.decode()

    def link_of(self, e, attr):
        at, form, kind, value = e.attrs[attr]
        if CLASS[form] != 'reference':
            raise Refused('.debug_info', at, 33)
        target = self.at.get(value if kind == 'ref_addr' else e.unit.start + value)
        if target is None:
            raise Refused('.debug_info', at, 32)
        return target

    def address_of(self, e, at, kind, value):
        if kind == 'addr':
            return value
        base, addrs = e.unit.bases[0x73], self.s['.debug_addr']
        if base is None or base + 8 * value + 8 > len(addrs):
            raise Refused('.debug_info', at, 31)
        return int.from_bytes(addrs[base + 8 * value:base + 8 * value + 8], 'little')

    def pass_b(self, e):
        if e.tag == 0x2e:
            raise Refused('.debug_info', e.offset, 99)
        for attr in e.order:
            want = ROWS[e.tag].get(attr)
            if want is None:
                continue
            at, form, kind, value = e.attrs[attr]
            if not fits(want, form):
                raise Refused('.debug_info', at, 33)
            if want == 'string':
                text = self.text_of(e, attr)
                self.name_fault(e, attr, text)
            elif want == 'reference':
                self.link_of(e, attr)
                if attr == ORIGIN:
                    self.origin_items(e)
            elif want == 'address':
                self.address_of(e, at, kind, value)
            elif want == 'location' and attr == LOC:
                if kind == 'expr':
                    self.static_address(e)

    def is_word_name(self, e):
        if e.tag in (0x0d, 0x2f, 0x28):
            return True
        if e.tag in (0x34, 0x05):
            return self.around(e) == 'function'
        return False

    def name_fault(self, e, attr, text):
        at = e.attrs[attr][0]
        if self.is_word_name(e):
            if not names.is_word(text):
                raise Refused('.debug_info', at, 39)
        else:
            if len(self.joined(e, text).encode()) > 65535:
                raise Refused('.debug_info', at, 14)

    def joined(self, e, text):
        own = names.read(text)
        if own is not None and not own.is_short_path():
            return text
        parts, up = [text], e.up
        while up is not None:
            if up.tag in (0x39, 0x13, 0x04, 0x17):
                parts.append(self.text_of(up, NAME) if NAME in up.attrs else '')
            up = up.up
        return '::'.join(reversed(parts))

    def origin_items(self, e):
        """the items of the entries that an abstract_origin leads to, for a variable without a function around it"""
        step, last = 0, e
        seen_name, seen_type = NAME in e.attrs, TYPE in e.attrs
        while ORIGIN in last.attrs and step < 8 and not (seen_name and seen_type):
            last = self.link_of(last, ORIGIN)
            step += 1
            for attr in last.order:
                if attr == NAME and not seen_name:
                    self.origin_name_fault(e, last, self.text_of(last, NAME))
                elif attr == TYPE and not seen_type:
                    self.link_of(last, TYPE)
                elif attr == ORIGIN:
                    self.link_of(last, ORIGIN)
            if not seen_name and NAME in last.attrs:
                seen_name = True
            if TYPE in last.attrs:
                seen_type = True

    def origin_name_fault(self, e, last, text):
        if not self.is_word_name(e) and len(self.joined(last, text).encode()) > 65535:
            raise Refused('.debug_info', last.attrs[NAME][0], 14)

    def found(self, e, attr):
        """the entry that gives a variable's name or type, through at most 8 origins: (entry or None, whether more origins stand there)"""
        for step in range(9):
            if attr in e.attrs:
                return e, False
            if ORIGIN not in e.attrs:
                return None, False
            if step == 8:
                return None, True
            e = self.link_of(e, ORIGIN)

    def static_address(self, e):
        at, form, kind, (place, data) = e.attrs[LOC]
        cut = Cut(data, 0, len(data), '.debug_info')
        found = []
        try:
            while cut.at < cut.end:
                here, op = cut.at, cut.num(1)
                if op == 0x96:
                    continue
                if op == 3:
                    found.append(('addr', cut.num(8), here))
                elif op == 0xa1:
                    found.append(('addrx', cut.leb(), here))
                else:
                    return None
        except Refused:
            return None
        if len(found) != 1:
            return None
        kind, value, here = found[0]
        return self.address_of(e, place + here, kind, value)

    # pass C
    def const(self, e, attr, missing=None):
        """a u32 attribute: the number, or rule 34"""
        if attr not in e.attrs:
            return missing
        n = self.number(e, attr)
        if not 0 <= n < 2 ** 32:
            raise Refused('.debug_info', e.offset, 34)
        return n

    def number(self, e, attr):
        at, form, kind, value = e.attrs[attr]
        return value

    def resolve(self, target):
        """a link through typedefs: the entry, or a rule"""
        steps = 0
        while target.tag == 0x16:
            steps += 1
            if steps > 64:
                return None, 46
            if TYPE not in target.attrs:
                return None, 41
            target = self.link_of(target, TYPE)
        return target, None

    def prim(self, e):
        name = self.joined(e, self.text_of(e, NAME)) if NAME in e.attrs else self.joined(e, '')
        own = self.text_of(e, NAME) if NAME in e.attrs else ''
        size, enc = self.number(e, SIZE), self.number(e, 0x3e)
        if enc == 2 and size == 1:
            return 'bool'
        if enc in (0x10, 8) and size == 4 and own == 'char':
            return 'char'
        if enc in (5, 7) and size == 8 and own in ('isize', 'usize'):
            return own
        if enc in INTS and size in (1, 2, 4, 8, 16):
            return INTS[enc] + str(size * 8)
        if enc == 6 and size == 1:
            return 'i8'
        if enc == 8 and size == 1:
            return 'u8'
        if enc == 4 and size in (4, 8):
            return 'f%d' % (size * 8)
        if enc == 7 and size == 0 and own == '()':
            return '()'
        return None

    def ref(self, e, target):
        """the type that a link leads to, or the rule that the link breaks"""
        end, rule = self.resolve(target)
        if rule:
            raise Refused('.debug_info', e.offset, rule)
        if end.tag == 0x24:
            if not (SIZE in end.attrs and 0x3e in end.attrs):
                return 'u8'        # that entry is itself invalid
            return self.prim(end) or 'u8'
        if end.tag in TYPES and end.offset in self.number_of:
            return '#%d' % self.number_of[end.offset]
        raise Refused('.debug_info', e.offset, 41)

    def name_text(self, e):
        return self.joined(e, self.text_of(e, NAME)) if NAME in e.attrs else self.joined(e, '')

    def spelled(self, text):
        data = text.encode()
        if len(data) <= 1000 and names.read(text) is not None:
            return text
        out = ''
        for b in data:
            out += '\\' + chr(b) if chr(b) in '"\\' else chr(b) if 0x20 <= b <= 0x7e else '\\x%02x' % b
        return '"%s"' % out

    def pass_c(self):
        self.typed = [e for e in self.live if e.tag in TYPES and not (e.tag == 0x13 and e.up is not None and self.is_variant_structure(e))]
        self.number_of = {e.offset: i for i, e in enumerate(self.typed)}
        self.types, self.statics = {}, []
        for e in self.live:
            self.row(e)
        self.lines = ['rdbg-layout 1', 'target 8']
        for i, e in enumerate(self.typed):
            self.lines += ['type %d %s' % (i, self.types[e.offset][0])] + self.types[e.offset][1:]
        self.lines += self.statics

    def is_variant_structure(self, e):
        return e.up.tag == 0x13

    def need(self, e, *attrs):
        if any(a not in e.attrs for a in attrs):
            raise Refused('.debug_info', e.offset, 40)

    def row(self, e):
        """what an entry says; rules 40 to 48 at its offset"""
        f = lambda rule: Refused('.debug_info', e.offset, rule)
        tag = e.tag
        if tag == 0x24:
            self.need(e, SIZE, 0x3e)
            if self.prim(e) is None:
                raise f(42)
        elif tag == 0x16:
            self.need(e, TYPE)
            self.ref(e, self.link_of(e, TYPE))
        elif tag == 0x2f:
            if e.up.tag == 0x13:
                self.need(e, NAME, TYPE)
                self.ref(e, self.link_of(e, TYPE))
        elif tag == 0x28:
            self.need(e, NAME, CONST)
        elif tag == 0x01:
            self.need(e, TYPE)
            ref = self.ref(e, self.link_of(e, TYPE))
            ranges = [b for b in e.below if not b.passed and b.tag == 0x21]
            if len(ranges) != 1 or 0x37 not in ranges[0].attrs:
                raise f(43)
            self.types[e.offset] = ['array %d %s' % (self.number(ranges[0], 0x37) % 2 ** 64, ref)]
        elif tag == 0x0f:
            self.types[e.offset] = [self.pointer(e)]
        elif tag == 0x17:
            size, align = self.const(e, SIZE, 0), self.const(e, ALIGN, 0)
            self.types[e.offset] = ['bytes %d %d %s' % (size, align, self.spelled(self.name_text(e)))]
        elif tag == 0x04:
            self.clike(e)
        elif tag == 0x13:
            if e.offset in self.number_of:
                self.structure(e)
        elif tag == 0x34 and self.around(e) is None:
            self.static(e)

    def pointer(self, e):
        text = self.name_text(e) if NAME in e.attrs else ''
        kind = 'refmut' if text.startswith('&mut ') else 'ref' if text.startswith('&') else 'const' if text.startswith('*const ') \
            else 'box' if text.startswith('alloc::boxed::Box<') else 'mut'
        if TYPE not in e.attrs:
            return 'thin %s ()' % kind
        target = self.link_of(e, TYPE)
        end, rule = self.resolve(target)
        if rule:
            raise Refused('.debug_info', e.offset, rule)
        if end.tag == 0x15:
            return 'fn'
        return 'thin %s %s' % (kind, self.ref(e, target))

    def clike(self, e):
        self.need(e, TYPE)
        end, rule = self.resolve(self.link_of(e, TYPE))
        if rule:
            raise Refused('.debug_info', e.offset, rule)
        prim = self.prim(end) if end.tag == 0x24 and SIZE in end.attrs and 0x3e in end.attrs else None
        if end.tag != 0x24 or prim is not None and (prim[0] not in 'iu'):
            raise Refused('.debug_info', e.offset, 41)
        size = self.const(end, SIZE)
        lines = ['clike %s %s' % (prim, self.spelled(self.name_text(e)))]
        for b in e.below:
            if not b.passed and b.tag == 0x28:
                self.need(b, NAME, CONST)
                lines.append('case %s %d' % (self.text_of(b, NAME), self.number(b, CONST) % (1 << 8 * size)))
        self.types[e.offset] = lines

    def fields(self, e):
        out = []
        for b in e.below:
            if not b.passed and b.tag == 0x0d:
                self.need(b, NAME, TYPE)
                if 0x0d in b.attrs or 0x6b in b.attrs:
                    raise Refused('.debug_info', b.offset, 48)
                off = self.const(b, 0x38, 0)
                out.append('field %s %d %s' % (self.text_of(b, NAME), off, self.ref(b, self.link_of(b, TYPE))))
        return out

    def structure(self, e):
        size, align = self.const(e, SIZE, 0), self.const(e, ALIGN, 0)
        text = self.name_text(e)
        parts = [b for b in e.below if not b.passed and b.tag == 0x33]
        params = []
        for b in e.below:
            if not b.passed and b.tag == 0x2f:
                self.need(b, NAME, TYPE)
                params.append('param %s %s' % (self.text_of(b, NAME), self.ref(b, self.link_of(b, TYPE))))
        if len(parts) > 1:
            raise Refused('.debug_info', parts[1].offset, 44)
        if parts:
            self.types[e.offset] = ['enum %d %d %s' % (size, align, self.spelled(text))] + params + self.variants(e, parts[0])
            return
        fields = self.fields(e)
        shape = names.fat(names.read(text)) if len(text.encode()) <= 1000 else None
        if shape:
            kind, what = shape
            want = ('pointer', 'vtable') if what == 'dyn' else ('data_ptr', 'length')
            got = [f.split() for f in fields]
            if len(got) == 2 and [g[1] for g in got] == list(want) and [g[2] for g in got] == ['0', '8'] and self.is_thin(got[0][3]) \
                    and (what != 'dyn' or self.is_thin(got[1][3])) and (what != 'str' or self.leads_to_u8(got[0][3])):
                refs = got[0][3] + (' ' + got[1][3] if what == 'dyn' else '')
                self.types[e.offset] = ['%s %s %s %s' % (what, kind, refs, self.spelled(text))]
                return
        self.types[e.offset] = ['struct %d %d %s' % (size, align, self.spelled(text))] + params + fields

    def entry_of(self, ref):
        return self.typed[int(ref[1:])] if ref.startswith('#') else None

    def is_thin(self, ref):
        e = self.entry_of(ref)
        if e is None or e.tag != 0x0f:
            return False
        if TYPE in e.attrs:
            end, rule = self.resolve(self.link_of(e, TYPE))
            return end is not None and end.tag != 0x15
        return True

    def leads_to_u8(self, ref):
        e = self.entry_of(ref)
        if TYPE not in e.attrs:
            return False
        end, rule = self.resolve(self.link_of(e, TYPE))
        return end is not None and end.tag == 0x24 and self.prim(end) == 'u8'

    def variants(self, e, part):
        f = lambda rule: Refused('.debug_info', part.offset, rule)
        variants = [b for b in part.below if not b.passed and b.tag == 0x19]
        if not variants:
            if 0x15 in part.attrs:
                self.tag_member(part)
            return []
        listed = [v for v in variants if 0x16 in v.attrs]
        tag = None
        if 0x15 in part.attrs:
            tag = self.tag_member(part)
        has_tag = tag is not None and not (not listed and len(variants) == 1)
        if len(variants) - len(listed) > 1:
            raise f(44)
        lines, prim_size = [], 0
        if has_tag:
            off, prim, prim_size = tag
            lines.append('tag %d %s' % (off, prim))
        numbers = []
        for v in listed:
            at, form, kind, value = v.attrs[0x16]
            w = 8 * (prim_size or 16)
            if kind == 'block':
                if has_tag and len(value[1]) != prim_size:
                    raise Refused('.debug_info', v.offset, 44)
                value = int.from_bytes(value[1], 'little')
            elif kind.startswith('data') and has_tag and prim.startswith('i') and value >> (8 * int(kind[4:]) - 1):
                value -= 1 << 8 * int(kind[4:])
            numbers.append(value % (1 << w))
        k = 0
        for v in variants:
            members = [b for b in v.below if not b.passed and b.tag == 0x0d]
            if len(members) != 1 or 0x3d in v.attrs:
                raise Refused('.debug_info', v.offset, 44)
            m = members[0]
            self.need(m, NAME, TYPE)
            target, rule = self.resolve(self.link_of(m, TYPE))
            if rule:
                raise Refused('.debug_info', m.offset, rule)
            if target.tag != 0x13:
                raise Refused('.debug_info', v.offset, 44)
            name = self.text_of(m, NAME)
            if not has_tag:
                if len(variants) > 1:
                    raise f(44)
                lines.append('variant %s only' % name)
            elif 0x16 in v.attrs:
                lines.append('variant %s exact %d' % (name, numbers[k]))
                k += 1
            else:
                w = 8 * prim_size
                first, last = numbers[0], numbers[-1]
                if (last - first) % (1 << w) == (1 << w) - 1:
                    raise f(44)
                lines.append('variant %s span %d %d' % (name, (last + 1) % (1 << w), (first - 1) % (1 << w)))
            lines += self.fields(target)
        return lines

    def tag_member(self, part):
        m = self.link_of(part, 0x15)
        if m.up is not part or m.tag != 0x0d:
            raise Refused('.debug_info', part.offset, 45)
        if TYPE not in m.attrs:
            raise Refused('.debug_info', m.offset, 40)
        ref = self.ref(m, self.link_of(m, TYPE))
        if ref.startswith('#'):
            raise Refused('.debug_info', part.offset, 44)
        size = {'bool': 1, 'char': 4, '()': 0, 'isize': 8, 'usize': 8}.get(ref) or int(ref[1:] or 0) // 8 if ref != '()' else 0
        return self.const(m, 0x38, 0), ref, size

    def static(self, e):
        giver, more = self.found(e, NAME)
        if more:
            raise Refused('.debug_info', e.offset, 46)
        if giver is None:
            return
        typed, more = self.found(e, TYPE)
        if typed is None:
            raise Refused('.debug_info', e.offset, 46 if more else 40)
        ref = self.ref(e, self.link_of(typed, TYPE))
        address = self.static_address(e) if LOC in e.attrs and e.attrs[LOC][2] == 'expr' else None
        self.statics.append('static %s %s %s' % ('none' if address is None else hex(address), ref, self.spelled(self.joined(giver, self.text_of(giver, NAME)))))


def read_bundle(data):
    f = lambda at, rule: Refused('bundle', at, rule)
    if data[:8] != b'RVBUNDL1':
        raise f(0, 1)
    if len(data) < 9 or data[8] not in (1,):
        raise f(8, 2)
    if len(data) < 10 or data[9] != 8:
        raise f(9, 2)
    if data[10:12] != b'\0\0':
        raise f(10, 2)
    at, sections = 12, {}
    for name in SECTIONS:
        if len(data) - at < 4:
            raise f(at, 3)
        n = int.from_bytes(data[at:at + 4], 'little')
        if n > len(data) - at - 4:
            raise f(at, 3)
        sections[name] = data[at + 4:at + 4 + n]
        at += 4 + n
    if at < len(data):
        raise f(at, 3)
    return sections


def show(data, with_functions=True):
    """The lines of the set that a bundle describes, or the message of the first error."""
    try:
        return '\n'.join(Model(read_bundle(data), with_functions).lines)
    except Refused as why:
        return str(why)


def main():
    words = argparse.ArgumentParser(description='Prints the types and statics that a DWARF bundle describes.')
    words.add_argument('--without-functions', action='store_true', help='pass over functions with all below them')
    words.add_argument('bundle', metavar='BUNDLE')
    given = words.parse_args()
    with open(given.bundle, 'rb') as file:
        print(show(file.read(), not given.without_functions))


if __name__ == '__main__':
    main()
