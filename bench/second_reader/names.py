"""Rust spellings of names: the one tree with a text, or None."""


class Name:
    """A tree: kind and parts."""

    def __init__(self, kind, *parts):
        self.kind, self.parts = kind, parts

    def depth(self):
        below = [p.depth() for p in walk(self.parts)]
        return 1 + max(below, default=0)

    def is_short_path(self):
        """a path of one segment"""
        return self.kind == 'path' and len(self.parts[0]) == 1


def walk(parts):
    for p in parts:
        if isinstance(p, Name):
            yield p
        elif isinstance(p, (list, tuple)):
            yield from walk(p)


class No(Exception):
    pass


def is_start(c):
    return c.isascii() and (c.isalpha() or c == '_') or not c.isascii()


class Reader:
    def __init__(self, text):
        self.text, self.at = text, 0

    def sees(self, word):
        return self.text.startswith(word, self.at)

    def take(self, word):
        if not self.sees(word):
            raise No
        self.at += len(word)

    def takes(self, word):
        if self.sees(word):
            self.at += len(word)
            return True
        return False

    def word(self):
        start = self.at
        if self.at >= len(self.text) or not is_start(self.text[self.at]):
            raise No
        while self.at < len(self.text) and (is_start(self.text[self.at]) or self.text[self.at] in '0123456789'):
            self.at += 1
        word = self.text[start:self.at]
        if len(word.encode()) > 255:
            raise No
        return word

    def digits(self, most):
        start = self.at
        while self.at < len(self.text) and self.text[self.at] in '0123456789':
            self.at += 1
        digits = self.text[start:self.at]
        if not digits or (digits[0] == '0' and digits != '0') or int(digits) > most:
            raise No
        return int(digits)

    def path(self):
        segs = []
        while True:
            if self.takes('{'):
                word = self.word()
                self.take('#')
                number = self.digits(2 ** 32 - 1)
                self.take('}')
            else:
                word, number = self.word(), None
            args = []
            if self.takes('<'):
                args = self.list('>', self.arg)
                if not args:
                    raise No
            segs.append((word, number, args))
            if not self.takes('::'):
                break
        return Name('path', segs)

    def list(self, end, item):
        items = []
        if self.takes(end):
            return items
        while True:
            items.append(item())
            if self.takes(end):
                return items
            self.take(', ')

    def arg(self):
        if self.at < len(self.text) and self.text[self.at] in '-0123456789':
            minus = self.takes('-')
            n = self.digits(2 ** 128 - 1)
            if minus and n == 0:
                raise No
            return Name('number', minus, n)
        start = self.at
        try:
            word = self.word()
            if self.takes('='):
                return Name('bind', word, self.name())
        except No:
            pass
        self.at = start
        return self.name()

    def dyn_members(self):
        members = [self.path_member()]
        while self.takes(' + '):
            members.append(self.path_member())
        return members

    def path_member(self):
        p = self.path()
        if p.parts[0] == [('str', None, [])]:
            raise No
        return p

    def name(self):
        if self.takes('&mut '):
            return Name('pointer', 'refmut', self.name())
        if self.takes('&'):
            return Name('pointer', 'ref', self.name())
        if self.takes('*const '):
            return Name('pointer', 'const', self.name())
        if self.takes('*mut '):
            return Name('pointer', 'mut', self.name())
        if self.takes('['):
            of = self.name()
            if self.takes('; '):
                n = self.digits(2 ** 64 - 1)
                self.take(']')
                return Name('array', of, n)
            self.take(']')
            return Name('slice', of)
        if self.sees('(dyn '):
            start = self.at
            self.take('(dyn ')
            members = self.dyn_members()
            if len(members) >= 2 and self.takes(')'):
                return Name('dyn', members)
            self.at = start
        if self.takes('('):
            return Name('tuple', self.list(')', self.name))
        if self.sees('dyn '):
            self.take('dyn ')
            return Name('dyn', [self.path_member()])
        if self.takes('fn('):
            args = self.list(')', self.name)
            if self.takes(' -> '):
                result = self.name()
                if result.kind == 'tuple' and not result.parts[0]:
                    raise No
                return Name('fn', args, result)
            return Name('fn', args, Name('tuple', []))
        p = self.path()
        if p.parts[0] == [('str', None, [])]:
            return Name('str')
        return p


def read(text):
    """The name with this text, or None; the text is a str of at most 1,000 bytes in UTF-8."""
    reader = Reader(text)
    try:
        name = reader.name()
    except (No, RecursionError):
        return None
    if reader.at != len(text) or name.depth() > 64:
        return None
    return name


def is_word(text):
    """Whether a text is a word of names."""
    reader = Reader(text)
    try:
        reader.word()
    except No:
        return False
    return reader.at == len(text)


def fat(name):
    """The kind and the shape of a fat name, or None."""
    if name is None:
        return None
    if name.kind == 'pointer' and name.parts[1].kind in ('slice', 'str', 'dyn'):
        return name.parts[0], name.parts[1].kind
    if name.kind == 'path':
        segs = name.parts[0]
        if [s[0] for s in segs] == ['alloc', 'boxed', 'Box'] and all(s[1] is None for s in segs) and not segs[0][2] and not segs[1][2] \
                and segs[2][2] and segs[2][2][0].kind in ('slice', 'str', 'dyn'):
            return 'box', segs[2][2][0].kind
    return None
