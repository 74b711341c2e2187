#!/usr/bin/env python3
"""Writes a table of productions, and what og_grammar's test takes for granted of its parts, as the text of constants.

    tools/table.py FILE.grammar > table.txt

The file has lines 'kinds K ..', 'last K', 'name N', and then a production a line:
    part = symbol .. | symbol ..        K: a token    +K, ++K: one at which the nesting rises by one, by two    -K: one at which
    it falls by one    p: a part    @p: a part that is a scope    ?p: an option    *p: a repetition
    ~K: nothing, where the next token is not K
Nothing rests on this program: og_grammar's test (is_predictive) verifies every number that it writes. What it refuses is said
in its own words: two alternatives that begin alike, an option that cannot be told from what follows, a part without a text.
"""
import re
import sys


def load(path):
    kinds, last, name, rules, order = [], None, None, [], []
    for line in open(path):
        words = line.split()
        if not words:
            continue
        if words[0] == 'kinds':
            kinds = words[1:]
        elif words[0] == 'last':
            last = words[1]
        elif words[0] == 'name':
            name = words[1]
        else:
            left, right = line.split('=', 1)
            left = left.strip()
            for way in right.split('|'):
                rules.append((left, way.split()))
            if left not in order:
                order.append(left)
    return kinds, last, name, rules, order


def main(path):
    kinds, last, name, rules, order = load(path)
    part = {p: i for i, p in enumerate(order)}
    kind = {k: i for i, k in enumerate(kinds)}
    inner = ('Part', 'Scope')
    optional = ('Maybe', 'Many')

    def symbol(s):
        marks = {'~': ('NotBefore', kind), '@': ('Scope', part), '?': ('Maybe', part), '*': ('Many', part)}
        if s[0] in marks and len(s) > 1:
            return marks[s[0]][0], marks[s[0]][1][s[1:]]
        return ('Part', part[s]) if s in part else ('Token', kind[s.lstrip('+-')])

    def written(s, what, v):
        name = f'part::{constant(order[v])}' if what in inner + optional else f'kind::{constant(kinds[v])}'
        if what == 'Token':
            ups, downs = len(s) - len(s.lstrip('+')), len(s) - len(s.lstrip('-'))
            name += f', Rises({ups})' if ups else f', Falls({downs})' if downs else ', Keeps'
        return f'Symbol::{what}({name}),'

    table = [(part[left], [symbol(s) for s in way]) for left, way in rules]
    n = len(order)
    begins, follows, empty = [0] * n, [0] * n, [False] * n
    rank, least, lead, bars, weight = [None] * n, [0] * n, [0] * n, [0] * n, [1] * n
    names = lambda bits: [k for k in kinds if bits >> kind[k] & 1]

    def is_empty(s):
        return empty[s[1]] if s[0] in inner else s[0] in optional + ('NotBefore',)

    def ahead(symbols, behind):
        for what, v in reversed(symbols):
            if what == 'Token':
                behind = 1 << v
            elif what in inner:
                behind = begins[v] | (behind if empty[v] else 0)
            elif what in optional:
                behind = begins[v] | behind
            else:
                behind &= ~(1 << v)
        return behind

    def lead_of(symbols):
        for what, v in symbols:
            if what == 'Token':
                return 1 << v
            if what in inner and lead[v]:
                return lead[v]
        return 0

    def until_still(step):
        while step():
            pass

    def first_step():
        changed = False
        for p, way in table:
            b, e = begins[p] | ahead(way, 0), empty[p] or all(map(is_empty, way))
            changed |= (b, e) != (begins[p], empty[p])
            begins[p], empty[p] = b, e
        return changed

    def follow_step():
        changed = False
        for p, way in table:
            for i, (what, v) in enumerate(way):
                if what in inner + optional:
                    f = follows[v] | ahead(way[i + 1:], follows[p]) | (begins[v] if what == 'Many' else 0)
                    changed |= f != follows[v]
                    follows[v] = f
        return changed

    def rank_step(level=[0]):
        new = []
        for p in range(n):
            if rank[p] is None:
                ways = [way for q, way in table if q == p]
                for c, way in enumerate(ways):
                    if all(what not in inner or rank[v] is not None for what, v in way):
                        new.append((p, c, way))
                        break
        for p, c, way in new:
            rank[p], least[p], lead[p] = level[0], c, lead_of(way)
        level[0] += 1
        return bool(new)

    def bar_step():
        changed = False
        for p, way in table:
            for i, (what, v) in enumerate(way):
                own = bars[v] if what in inner + optional else 1 << v if what == 'NotBefore' else 0
                l = lead_of(way[i + 1:])
                if own and l & own:
                    sys.exit(f'{order[p]}: the least text begins with a barred token')
                if own and not l:
                    changed |= own | bars[p] != bars[p]
                    bars[p] |= own
        return changed

    def weight_step(turns=[0]):
        turns[0] += 1
        if turns[0] > 10000:
            sys.exit('a part begins with itself')
        changed = False
        extra = {'Part': 0, 'Scope': 1, 'Maybe': 2, 'Many': 2}
        for p, way in table:
            total = 0
            for s in way:
                total += 1 if s[0] == 'NotBefore' else weight[s[1]] + extra[s[0]] if s[0] in extra else 0
                if not is_empty(s):
                    break
            if total >= weight[p]:
                weight[p], changed = total + 1, True
        return changed

    until_still(first_step)
    follows[0] = 1 << kind[last]
    until_still(follow_step)
    until_still(rank_step)
    if None in rank:
        sys.exit(f'without a text: {[order[p] for p in range(n) if rank[p] is None]}')
    until_still(bar_step)
    until_still(weight_step)
    for p in range(n):
        seen = 0
        for q, way in table:
            if q == p:
                here = ahead(way, follows[p])
                if here & seen:
                    sys.exit(f'{order[p]}: two alternatives begin with {names(here & seen)}')
                seen |= here
    for p, way in table:
        for i, (what, v) in enumerate(way):
            if what in optional:
                both = ahead(way[i + 1:], follows[p]) & begins[v]
                if both or empty[v]:
                    sys.exit(f'{order[p]}: {order[v]} cannot be told from what follows: {names(both)}')

    constant = lambda word: re.sub(r'[^A-Za-z0-9]', '_', word).upper()
    print('\n'.join(f'pub const {constant(k)}: u8 = {i};  // kind' for i, k in enumerate(kinds)))
    print('\n'.join(f'pub const {constant(p)}: u8 = {i};  // part' for i, p in enumerate(order)))
    print(f'pub const {name}: [Symbol; {sum(len(way) + 1 for _, way in table)}] = [')
    for (p, way), (left, words) in zip(table, rules):
        print(f'    // {left} = {" ".join(words)}')
        print('    ' + ' '.join([f'Symbol::Rule(part::{constant(order[p])}),'] + [written(s, *both) for s, both in zip(words, way)]))
    print('];')
    print(f'pub const {name}_PARTS: [Part; {n}] = [')
    for p in range(n):
        print(f'    // {order[p]}')
        print(f'    Part {{ begins: {begins[p]:#x}, follows: {follows[p]:#x}, empty: {str(empty[p]).lower()}, weight: {weight[p]}, '
              f'rank: {rank[p]}, least: {least[p]}, lead: {lead[p]:#x}, bars: {bars[p]:#x} }},')
    print('];')


if __name__ == '__main__':
    main(sys.argv[1])
