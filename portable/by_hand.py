"""outer.c: the outermost layer of the programs, which C has by hand. Above each function stands the one of Rattle that it is in place of;
where that has changed, or its head in C, the translation stops."""
import os
import re

from .forms import DECLARED
from .mir import Unknown

PATH = os.path.join(os.path.dirname(__file__), 'outer.c')


class ByHand:
    """`functions`: the lines of each in C, by its name in Rattle. `used`: those of other functions of C that a function calls."""

    def __init__(self, path=PATH):
        with open(path, encoding='utf-8') as f:
            parts = f.read().split('\n\n')
        self.includes = [x for x in parts[0].splitlines() if x.startswith('#include')]
        self.functions, self.sources = {}, {}
        for part in parts[1:]:
            m = re.fullmatch(r'/\* ([\w:+]+)((?:\n \*.*)*) \*/\n(.*)', part.strip('\n'), re.S)
            if not m:
                raise Unknown(f'a part of outer.c: {part[:60]}')
            self.sources[m[1]] = ' '.join(' '.join(line.strip().removeprefix('*') for line in m[2].splitlines()).split())
            self.functions[m[1]] = m[3].splitlines()

    def meet(self, symbol, sources):
        """That the function in Rattle is the one that outer.c has above the one in C; a method that a trait declares has no body."""
        if symbol.endswith(DECLARED):
            return
        source = sources.functions.get(symbol)
        if source is None or source.text != self.sources[symbol]:
            raise Unknown(f'{symbol} is by hand (portable/outer.c), in place of another function than {source and source.text}')

    def calls(self, symbol):
        """The functions of C that one calls."""
        return re.findall(r'\b(dm_\w+)\(', '\n'.join(self.functions[symbol][1:]))

    def head(self, symbol):
        return self.functions[symbol][0].removeprefix('static ')

    def lines(self, symbol):
        return self.functions[symbol][1:]
