"""What was proved: the libraries that `rt` leaves in crates/NAME/out/rlib, and the kit's."""
import json
import os
import re
import subprocess
import sys

from .forms import DECLARED, Dict, Instance, function_of, signature_of
from .mir import Failed, Unknown
from .source import Sources

# The toolchains whose MIR is known here (`rt version`).
KITS = ('rattle-kit-13f logic dac8208d650f15bf',)

# The traits of a program's reader and writer, which are standard input and standard output here. C does not pass them on.
STANDARD = ('std::io::traits::Read', 'std::io::traits::Write')


def ran(*words, folder=None):
    done = subprocess.run(words, cwd=folder, capture_output=True, text=True, check=False)
    if done.returncode:
        raise Failed(f"{' '.join(words)[:80]} in {folder or '.'}: {(done.stderr + done.stdout).strip()[-400:]}")
    return done.stdout


def kit():
    """(the kit's folder, its identity)"""
    identity = ran('rt', 'version').strip()
    if identity not in KITS:
        raise Unknown(f'the toolchain {identity}; known is {", ".join(KITS)}')
    return os.path.dirname(ran('rt', 'doc').strip()), identity


def listed(home):
    """crates.txt: (whether it is a static library, the crates below it) by a crate's name."""
    crates = {}
    with open(os.path.join(home, 'crates.txt'), encoding='utf-8') as f:
        for line in f:
            m = re.fullmatch(r'(\w+)((?: +[\w=+]+)*) *:([\w\s]*)', line.split('#')[0].strip())
            if m:
                crates[m[1]] = ('staticlib' in m[2].split(), m[3].split())
    return crates


def newest(folder):
    return max(os.path.getmtime(os.path.join(base, file)) for base, _, files in os.walk(folder) for file in files)


class Proved:
    """The functions of libraries, read as they are asked for, and their sources."""

    def __init__(self, home, roots):
        self.home, self.listed = home, listed(home)
        self.folder, self.kit = kit()
        self.raw, self.functions, self.impls = {}, {}, {}
        self.sources, self.levels, self.crates, self.rlibs = Sources(), {}, [], {}
        for root in roots:
            self.crate(root)

    # ---- libraries

    def crate(self, name):
        """Finds a library and those below it, and gives its level: 1 more than theirs."""
        if name in self.levels:
            return self.levels[name]
        if name in self.listed:
            own, below = os.path.join(self.home, 'crates', name), ['std', *self.listed[name][1]]
            self.levels[name] = 1 + max(self.crate(d) for d in below)
            if not os.path.isfile(os.path.join(own, 'src/main.rt')):
                self.rlibs[name] = self.static(name, own, below) if self.listed[name][0] else self.library(name, own)
            self.crates.append(name)
        else:
            self.rlibs[name] = rlib = self.rlib(name)
            if not os.path.isdir(rlib):
                raise Unknown(f'{name} is no library of the kit, and crates.txt does not list it')
            with open(os.path.join(rlib, 'format'), encoding='utf-8') as f:
                below = [x.split()[1] for x in f if x.startswith('dep ')]
            self.levels[name] = 1 + max([-1] + [self.crate(d) for d in below])
        return self.levels[name]

    def inside(self, name):
        """The functions of a library by their symbols, as mir.json has them. It is read with its sources once it is asked for; a
        program has none here."""
        if name not in self.raw and name in self.levels:
            self.raw[name] = {}
            if name in self.rlibs:
                with open(os.path.join(self.rlibs[name], 'toolchain/mir.json'), encoding='utf-8') as f:
                    self.raw[name] = dict(json.load(f))
            own = name in self.listed
            folder = os.path.join(*((self.home, 'crates') if own else (self.folder, 'rattle')), name, 'src')
            self.sources.crate(self.levels[name], name, folder, f'crates/{name}/src' if own else f'the kit, {name}')
        return self.raw.get(name, {})

    def found(self, symbol):
        functions = self.inside(symbol.split('::')[0])
        if symbol not in functions:
            raise Unknown(f'{symbol} is called and is in no library')
        return functions[symbol]

    def is_new(self, rlib, own):
        """Whether a library was made behind its sources' last change: its folder is made with it, its files may be links."""
        made = os.path.join(rlib, 'toolchain')
        return os.path.isfile(os.path.join(made, 'mir.json')) and os.path.getmtime(made) >= newest(os.path.join(own, 'src'))

    def library(self, name, own):
        """What `rt lib` leaves, and `rt ci`. Where that is older than a source, `rt lib` proves the crate, or knows that it is proved."""
        rlib = os.path.join(own, 'out/rlib', f'{name}.rlib')
        if not self.is_new(rlib, own):
            print(f'portable: rt lib in crates/{name}', file=sys.stderr)
            ran('rt', 'lib', folder=own)
            os.utime(os.path.join(rlib, 'toolchain'))
        return rlib

    def static(self, name, own, below):
        """A static library leaves no MIR: it is proved as a library, over what `rt check` kept of it."""
        rlib = os.path.join(own, 'out/rlib', f'{name}.rlib')
        if self.is_new(rlib, own) and all(os.path.getmtime(self.rlib(d)) <= os.path.getmtime(rlib) for d in below if d in self.listed):
            return rlib
        print(f'portable: proving crates/{name} as a library', file=sys.stderr)
        os.makedirs(os.path.dirname(rlib), exist_ok=True)
        kits = os.path.join(self.folder, 'rlibs')
        words = [os.path.join(self.folder, 'bin/rattle'), 'build', '--crate-name', name, 'src/lib.rt', '-L', f'dependency={kits}']
        for d in ['core', *below]:
            words += ['--extern', f'{d}={self.rlib(d)}']
        for d in self.crates:
            words += ['-L', f'dependency={os.path.dirname(self.rlib(d))}']
        ran(*words, '--antt-project', os.path.join(self.folder, 'rattle/logic/antt-project.json'), '--logic-built',
            os.path.join(self.folder, 'logic_built'), '--incremental', 'out/incremental', '--links', f'{name}=', '-o', rlib, folder=own)
        return rlib

    def rlib(self, name):
        own = os.path.join(self.home, 'crates', name, 'out/rlib') if name in self.listed else os.path.join(self.folder, 'rlibs')
        return os.path.join(own, f'{name}.rlib')

    # ---- functions

    def read(self, roots, by_hand=()):
        """Reads functions and all that they reach; of those that C has by hand their heads alone."""
        todo = list(roots)
        while todo:
            instance = todo.pop()
            if instance.name in self.functions:
                continue
            of = self.found(instance.symbol)
            if instance.symbol in by_hand:
                self.functions[instance.name] = signature_of(instance, of)
                continue
            self.functions[instance.name], calls = function_of(instance, of, self.impls)
            todo += calls.values()

    def at_standard(self, symbol):
        """A function over a reader and a writer, at standard input and standard output: types of no bytes, and dictionaries whose
        methods are those that the trait declares, which are by hand."""
        generics, dicts = self.found(symbol)['generics'], []
        for bound in generics['bounds']:
            if bound['of'] not in STANDARD:
                raise Unknown(f"{symbol} asks for {bound['of']}")
            self.impls[bound['of']] = self.declared(bound['of'])
            dicts.append(Dict(bound['of'], (('Unit',),), ()))
        return Instance(symbol, (('Unit',),) * len(generics['types']), tuple(dicts))

    def declared(self, trait):
        """The methods that a trait declares, in its order."""
        of = {x['generics']['method_of']['Trait'][1]: name for name, x in self.inside(trait.split('::')[0]).items()
              if name.endswith(DECLARED) and x['generics']['method_of']['Trait'][0] == trait}
        return [of[n] for n in range(len(of))]
