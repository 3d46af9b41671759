"""include/dartelm.h as data: its constants, enums, refusals' reasons, structs and calls, in their order."""
import os
import re

HOME = os.path.dirname(os.path.dirname(os.path.realpath(__file__)))


class Unreadable(Exception):
    """A line of the header of a form that is not known here."""


class Header:
    def __init__(self, home=HOME, prefix=''):
        """Names of structs and calls are without the prefix, those of constants without DARTELM_."""
        with open(os.path.join(home, 'include', 'dartelm.h'), encoding='utf-8') as f:
            whole = f.read()
        text = re.sub(r'/\*.*?\*/', '', whole, flags=re.S)
        self.constants = {name: int(value) for name, value in re.findall(r'^#define DARTELM_(\w+) ([0-9]+)$', text, re.M)}
        self.enums = [enumerators(body) for body in re.findall(r'^enum \{(.*?)\};', text, re.S | re.M)]
        self.reasons = reasons(whole)
        lengths = dict(self.constants)
        for enum in self.enums:
            lengths.update(enum)
        self.structs = {
            name.removeprefix(prefix): [member(line.replace(prefix, ''), lengths) for line in lines(body, ';')]
            for body, name in re.findall(r'^typedef struct \w+ \{(.*?)\} (\w+);', text, re.S | re.M)
        }
        self.calls = {
            name.removeprefix(prefix): (result.removeprefix(prefix), parameters(words.replace(prefix, '')))
            for result, name, words in re.findall(r'^(\w+) (dartelm_\w+)\(([^;]*?)\);', text, re.S | re.M)
        }
        if not self.calls:
            raise Unreadable('a header without calls')


def lines(text, end):
    return [line for line in (' '.join(part.split()) for part in text.split(end)) if line]


def reasons(text):
    """What the header says of each refusal, by its name."""
    body = re.search(r'DARTELM_ACCEPTED = 0,(.*?)^\};', text, re.S | re.M)
    if not body:
        raise Unreadable('the enum of refusals')
    found = re.findall(r'DARTELM_(\w+) = [0-9]+,?\s*/\*(.*?)\*/', body[1], re.S)
    return {name: ' '.join(words.replace('*', ' ').split()) for name, words in found}


def enumerators(body):
    found = []
    for line in lines(body, ','):
        parts = re.fullmatch(r'DARTELM_(\w+) = ([0-9]+)', line)
        if not parts:
            raise Unreadable(line)
        found.append((parts[1], int(parts[2])))
    return found


def member(line, lengths):
    """Name, type and length of a struct's member; its length is 0 where it is no array."""
    parts = re.fullmatch(r'(\w+) (\w+)(?:\[(?:DARTELM_)?(\w+)\])?', line)
    if not parts:
        raise Unreadable(line)
    length = parts[3] or '0'
    return parts[2], parts[1], int(length) if length.isdigit() else lengths[length]


def parameters(words):
    """Name and type of each parameter, as C has them."""
    found = []
    for line in [] if words.strip() == 'void' else lines(words, ','):
        parts = re.fullmatch(r'((?:const )?\w+ \*?)(\w+)', line)
        if not parts:
            raise Unreadable(line)
        found.append((parts[2], parts[1].strip()))
    return found


def lent(found):
    """Parameters in which a pointer and the length behind it are one, of type `const T[]`, or `T[]` if it is written."""
    out, left = [], list(found)
    while left:
        name, sort = left.pop(0)
        if sort.endswith('*'):
            if not left or left.pop(0) != (name + '_length', 'size_t'):
                raise Unreadable(f'a pointer without its length: {name}')
            sort = sort.removesuffix('*').strip() + '[]'
        out.append((name, sort))
    return out
