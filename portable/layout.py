"""How a value lies in memory: `align` and `size` of the kit's logic/Prog/Memory.antt, clause by clause."""

from .mir import Unknown


def up(k, e):
    """`up k e`: e to the next multiple of k."""
    return e + (k - e % k) % k


class Layout:
    def __init__(self, shapes):
        self.shapes = shapes    # of the declared types, by name

    def fields(self, t):
        """The fields of each variant, and where they begin: a struct has one, from 0; an enum's stand behind its tag's byte."""
        if not self.shapes.get(t[1]):
            raise Unknown(f'the shape of {t[1]}')
        kind, parts = self.shapes[t[1]]
        return ([parts], 0) if kind == 'Fields' else (parts, 1)

    def align(self, t):
        if t[0] in ('Int', 'Float'):
            return t[1] // 8
        if t[0] in ('Bool', 'Unit'):
            return 1
        if t[0] in ('Ptr', 'Ref', 'Slice'):
            return 8
        if t[0] == 'Array':
            return self.align(t[1])
        return max([1] + [self.align(f) for fields in self.fields(t)[0] for f in fields])

    def size(self, t):
        if t[0] in ('Int', 'Float'):
            return t[1] // 8
        if t[0] in ('Bool', 'Unit'):
            return {'Bool': 1, 'Unit': 0}[t[0]]
        if t[0] in ('Ptr', 'Ref', 'Slice'):
            return 16 if t[0] == 'Slice' else 8
        if t[0] == 'Array':
            return t[2] * self.size(t[1])
        lists, begin = self.fields(t)
        return up(self.align(t), max([begin] + [self.end(begin, fields) for fields in lists]))

    def end(self, e, fields):
        """`end_of`: where the last of these fields ends, if what stands before them ends at e."""
        for f in fields:
            e = up(self.align(f), e) + self.size(f)
        return e

    def has_pointer(self, t):
        """A pointer is 8 bytes to the machine and may be 4 to C, so that the size of what has one is not held to the machine's."""
        if t[0] in ('Ptr', 'Ref', 'Slice'):
            return True
        if t[0] == 'Array':
            return self.has_pointer(t[1])
        return t[0] == 'Named' and any(self.has_pointer(f) for fields in self.fields(t)[0] for f in fields)
