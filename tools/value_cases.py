#!/usr/bin/env python3
"""Cases of texts of values: what each reads as, and where the longest text ends that has the form of a value.

    tools/value_cases.py CASES OUTPUT

For each text of TEXTS, as a value of the type beside it: the text cut behind each byte, with a blank before each byte and
behind the last one, with two tabs between every two tokens, and without each byte. CASES is a file of cases, and OUTPUT what
has to be printed for it.

Where texts end is found by going through all ways in which the grammar of values can be followed, so that nothing is
taken for the longest before all are known. Nothing is shared with the programs of the repository.
"""
import functools
import re
import sys

DEEPEST = 64
NAME = re.compile('[A-Za-z][A-Za-z0-9_]*')

MODULE = '''M DEFINITIONS ::= BEGIN
Count ::= INTEGER (-9223372036854775808 .. 9223372036854775807)
Digit ::= INTEGER (0 .. 9)
Truth ::= BOOLEAN
Kind ::= ENUMERATED { off, low-Light, high }
Digits ::= SEQUENCE (SIZE (1 .. 3)) OF Digit
Pair ::= SEQUENCE { a Count, bc Kind }
Empty ::= SEQUENCE { }
Pick ::= CHOICE { one Digit, two Digits, none Empty }
Whole ::= SEQUENCE { pick Pick, pairs Pairs, ok Truth }
Pairs ::= SEQUENCE (SIZE (0 .. 2)) OF Pair
END
'''

# the same types
TYPES = {
    'Count': ('integer', -2 ** 63, 2 ** 63 - 1),
    'Digit': ('integer', 0, 9),
    'Truth': ('truth',),
    'Kind': ('enumerators', ['off', 'low_light', 'high']),
    'Digits': ('items', 1, 3, 'Digit'),
    'Pair': ('sequence', [('a', 'Count'), ('bc', 'Kind')]),
    'Empty': ('sequence', []),
    'Pick': ('choice', [('one', 'Digit'), ('two', 'Digits'), ('none', 'Empty')]),
    'Whole': ('sequence', [('pick', 'Pick'), ('pairs', 'Pairs'), ('ok', 'Truth')]),
    'Pairs': ('items', 0, 2, 'Pair'),
}

TEXTS = [
    ('Count', '-12345678901234567890'),
    ('Truth', 'FALSE'),
    ('Kind', 'Low_Light'),
    ('Digits', '{1,2, 3}'),
    ('Pair', '{a -12, bc high}'),
    ('Empty', '{}'),
    ('Pick', 'two: {0, 9}'),
    ('Pick', 'none: {}'),
    ('Whole', '{pick one: 7, pairs {{a 0, bc off}}, ok TRUE}'),
    ('Pairs', '{{a 1, bc off}, {a -2, bc HIGH}}'),
]


class Text:
    """The forms of values that stand in a text, each by its place and the place behind it."""

    def __init__(self, text):
        self.text = text
        self.values = functools.lru_cache(None)(self.values)
        self.listed = functools.lru_cache(None)(self.listed)

    def blanks(self, at):
        """All places that only blanks separate from this one."""
        yield at
        while at < len(self.text) and self.text[at] in ' \t':
            at += 1
            yield at

    def names(self, at):
        """Each name in front, with the place behind it."""
        found = NAME.match(self.text, at)
        for end in range(at + 1, found.end() + 1 if found else at):
            if self.text[at:end] not in ('TRUE', 'FALSE'):
                yield self.text[at:end], end

    def numbers(self, at):
        end = at
        while end < len(self.text) and self.text[end] in '0123456789':
            end += 1
            yield int(self.text[at:end]), end

    def values(self, at, depth):
        """Each form of a value in front that nests at most so deep, with the place behind it."""
        found = [(('number', number), end) for number, end in self.numbers(at)]
        if self.text.startswith('-', at):
            found += [(('number', -number), end) for begin in self.blanks(at + 1) for number, end in self.numbers(begin)]
        for word in ('TRUE', 'FALSE'):
            if self.text.startswith(word, at):
                found.append((('truth', word), at + len(word)))
        for name, behind in self.names(at):
            found.append((('name', name), behind))
            if depth:
                found += [(('choice', name, value), end) for mark in self.blanks(behind) if self.text.startswith(':', mark)
                          for begin in self.blanks(mark + 1) for value, end in self.values(begin, depth - 1)]
        if depth and self.text.startswith('{', at):
            for begin in self.blanks(at + 1):
                if self.text.startswith('}', begin):
                    found.append((('items',), begin + 1))
                for entry in (self.item, self.part):
                    found += self.listed(entry, begin, depth - 1)
        return found

    def item(self, at, depth):
        return [(('items', value), end) for value, end in self.values(at, depth)]

    def part(self, at, depth):
        return [(('parts', (name, value)), end) for name, behind in self.names(at) for begin in self.blanks(behind)
                if begin > behind or not re.match('[A-Za-z0-9_]', self.text[begin:begin + 1])
                for value, end in self.values(begin, depth)]

    def listed(self, entry, at, depth):
        """One or more entries with commas between them, and the brace behind them."""
        found = []
        for first, behind in entry(at, depth):
            for mark in self.blanks(behind):
                if self.text.startswith('}', mark):
                    found.append((first, mark + 1))
                if self.text.startswith(',', mark):
                    found += [(first + others[1:], end) for begin in self.blanks(mark + 1)
                              for others, end in self.listed(entry, begin, depth)]
        return found

    def longest(self):
        """The longest form in front and where it ends, if there is one."""
        found = self.values(0, DEEPEST)
        if not found:
            return None
        end = max(end for form, end in found)
        forms = {form for form, other in found if other == end}
        assert len(forms) == 1, (self.text, forms)
        return forms.pop(), end


def written(form, name):
    """The text of what the form says as a value of the type, or None."""
    kind, *of = TYPES[name]
    if form[0] == 'number' and kind == 'integer':
        return str(form[1]) if of[0] <= form[1] <= of[1] else None
    if form[0] == 'truth' and kind == 'truth':
        return form[1]
    if form[0] == 'name' and kind == 'enumerators':
        return form[1].lower() if form[1].lower() in of[0] else None
    if form[0] == 'choice' and kind == 'choice':
        inner = dict(of[0]).get(form[1].lower())
        value = written(form[2], inner) if inner else None
        return None if value is None else f'{form[1].lower()}: {value}'
    if form[0] == 'items' and kind == 'items':
        values = [written(value, of[2]) for value in form[1:]]
        return braced(values) if of[0] <= len(values) <= of[1] else None
    if form == ('items',) and (kind, *of) == ('sequence', []):
        return '{}'
    if form[0] == 'parts' and kind == 'sequence':
        if [part.lower() for part, value in form[1:]] != [part for part, inner in of[0]]:
            return None
        values = [written(value, inner) for (part, value), (same, inner) in zip(form[1:], of[0])]
        return None if None in values else braced([f'{part} {value}' for (part, inner), value in zip(of[0], values)])
    return None


def braced(values):
    return None if None in values else '{' + ', '.join(values) + '}'


def answer(text, name):
    found = Text(text).longest()
    if found is None:
        return 'none, no form'
    form, end = found
    value = written(form, name)
    told = 'none' if value is None else f'{value} to {end}'
    return f'{told}, form to {end}'


def changed(text):
    tokens = re.findall(r'\w+|[^\w\s]', text)
    yield '\t\t'.join(tokens)
    for at in range(len(text) + 1):
        yield text[:at]
    for at in range(len(text) + 1):
        yield text[:at] + ' ' + text[at:]
    for at in range(len(text)):
        yield text[:at] + text[at + 1:]


def spelt(text):
    return text.replace('\t', '\\t')


def main(to_cases, to_output):
    cases = ['# Texts of values, cut and changed at each byte: written by tools/value_cases.py.\n\nhead\nfile m.asn\n']
    cases += [f'|{line}\n' for line in MODULE.splitlines()]
    output = []
    for name, text in TEXTS:
        cases.append(f'\ncase {text}\nvalue m.asn {name} texts\nfile texts\n')
        output.append(f'== {text}\n')
        for one in dict.fromkeys([text, *changed(text)]):
            cases.append(f'|{spelt(one)}\n'.replace(' \n', '\\x20\n'))
            output.append(f'{spelt(one)} => {answer(one, name)}\n')
        output.append('\n')
    with open(to_cases, 'w', encoding='ascii') as file:
        file.writelines(cases)
    with open(to_output, 'w', encoding='ascii') as file:
        file.writelines(output)


if __name__ == '__main__':
    main(*sys.argv[1:])
