"""Which struct of include/dartelm.h each declared type is."""
from .header import Header
from .mir import Unknown


class Declared(Header):
    def __init__(self, home):
        super().__init__(home)
        self.own = {}

    def meet(self, fn, shapes):
        """Learns from a call which struct of the header each declared type is."""
        result, left = self.calls[fn.name.split('::')[-1]]
        self.match(fn.locals[0].type, result, shapes)
        left = list(left)
        for local in fn.locals[1:fn.params + 1]:
            if not left:
                raise Unknown(f'the header has other parameters of {fn.name}')
            self.match(local.type, left.pop(0)[1], shapes)
            if local.type[0] == 'Slice' and left:
                left.pop(0)

    def match(self, t, c, shapes):
        """A declared type is the header's struct, and so are the declared types of its fields."""
        if t[0] != 'Named' or c not in self.structs:
            return
        if self.own.setdefault(t[1], c) != c:
            raise Unknown(f'{t[1]} is {c} and {self.own[t[1]]} in the header')
        kind, parts = shapes[t[1]]
        if kind != 'Fields' or len(parts) != len(self.structs[c]):
            raise Unknown(f'the header has another {c}')
        for part, (_, member, length) in zip(parts, self.structs[c]):
            self.match(part[1] if length and part[0] == 'Array' else part, member, shapes)

    def struct_of(self, name):
        """The header's struct for a declared type, or None."""
        return self.own.get(name)
