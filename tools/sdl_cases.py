#!/usr/bin/env python3
"""Cases of texts of SDL/PR that go wrong: where each of them does.

    tools/sdl_cases.py docs/LANGUAGE.md INPUT OUTPUT

For a text of each production: the text broken off behind each of its tokens, and the text with one token left out,
written twice, or exchanged with the next one. INPUT gets a line `where TEXT` for each case, and OUTPUT what has to be
answered: `right`, or S1 at the first token such that no file begins with the tokens up to and including it.

The productions are read from the page that shows them, and the two sentences on enabling conditions and on braces are
added below. Whether a file begins with some tokens is found by Earley's method. Nothing is shared with the tables of
this directory or with the programs of the repository, so what they answer can be held against it.
"""
import re
import sys

KEYWORDS = '''AGGREGATION AND ANY BLOCK CALL CHANNEL COMMENT CONNECT CONNECTION DCL DECISION ELSE ENDBLOCK ENDCHANNEL
ENDCONNECTION ENDDECISION ENDPROCEDURE ENDPROCESS ENDSTATE ENDSUBSTRUCTURE ENDSYSTEM ENV EXTERNAL FALSE FPAR FROM IN
INPUT JOIN MOD NEXTSTATE NOT OR OUT OUTPUT PRIORITY PROCEDURE PROCESS PROVIDED REFERENCED REM RETURN RETURNS SAVE
SIGNAL SIGNALROUTE START STATE STOP SUBSTRUCTURE SYSTEM TASK THEN TIMER TO TRUE USE VIA WITH XOR'''.split()

# An INPUT's end followed by PROVIDED is an enabling condition. In braces an item that begins with a name followed by `-`
# is a component with a negative value, and a component's value does not begin with `(`. `!` forbids the next tokens.
SENTENCES = [
    ('[ PROVIDED expr end ] transition', '( PROVIDED expr end | !PROVIDED ) transition'),
    ('"{" expr { "," expr } "}"', '"{" !name- expr { "," !name- expr } "}"'),
    ('"{" name expr { "," name expr } "}"', '"{" name !( expr { "," name !( expr } "}"'),
]

# the text of each production, between what stands around it in the shortest file
SYSTEM = ('SYSTEM s ;', 'ENDSYSTEM ;')
BLOCK = ('SYSTEM s ; BLOCK b ;', 'ENDBLOCK ; ENDSYSTEM ;')
PROCESS = ('PROCESS p ;', 'ENDPROCESS ;')
STATE = ('PROCESS p ; STATE a ;', 'ENDSTATE ; ENDPROCESS ;')
START = ('PROCESS p ; START ;', 'ENDPROCESS ;')
TASK = ('PROCESS p ; START ; TASK x :=', '; ENDPROCESS ;')
ASKED = ('PROCESS p ; START ; DECISION n ;', 'ENDDECISION ; ENDPROCESS ;')
TEXTS = [
    (('', ''), "USE my - types COMMENT 'why' ;"),
    (('', ''), 'SYSTEM s ; USE t ; ENDSYSTEM s ;'),
    (('', ''), 'PROCESS p ( 1 , 2 ) ; ENDPROCESS p ;'),
    (SYSTEM, 'SIGNAL go , set ( T - Speed , U ) ;'),
    (SYSTEM, 'CHANNEL c FROM ENV TO b WITH go , up ; FROM b TO ENV WITH out_1 ; ENDCHANNEL c ;'),
    (SYSTEM, 'BLOCK b ; ENDBLOCK b ;'),
    (BLOCK, 'SIGNALROUTE r FROM ENV TO p WITH go ;'),
    (BLOCK, 'CONNECT c , d AND r , q ;'),
    (BLOCK, 'PROCESS p ( 1 , 1 ) REFERENCED ;'),
    (PROCESS, 'DCL n , m T - Count := 0 , ok Boolean ;'),
    (PROCESS, 'TIMER t , u ;'),
    (PROCESS, 'PROCEDURE f ; FPAR IN a T , IN / OUT b , c U ; RETURNS T ; EXTERNAL ;'),
    (PROCESS, 'PROCEDURE f ; DCL n T ; START ; RETURN n ; CONNECTION l : STOP ; ENDCONNECTION ; ENDPROCEDURE f ;'),
    (PROCESS, 'START named ;'),
    (PROCESS, 'STATE a , b ; ENDSTATE a ;'),
    (PROCESS, 'STATE * ( a , b ) ; ENDSTATE ;'),
    (STATE, 'INPUT go , set ( v , w ) ; PROVIDED n ; STOP ;'),
    (STATE, 'PROVIDED n > 3 ; PRIORITY 1 ; STOP ;'),
    (STATE, 'CONNECT done , failed ; STOP ;'),
    (STATE, 'SAVE go , up ;'),
    (PROCESS, 'STATE on ; SUBSTRUCTURE IN ( a , b ) ; OUT ( c ) ; DCL n T ; STATE x ; ENDSTATE ; ENDSUBSTRUCTURE on ;'),
    (PROCESS, 'STATE AGGREGATION all_on ; SUBSTRUCTURE IN ( a ) ; TIMER t ; STATE x ; ENDSTATE x ; '
              'STATE y ; SUBSTRUCTURE ENDSUBSTRUCTURE ; ENDSUBSTRUCTURE ;'),
    (PROCESS, 'CONNECTION again : JOIN top ; ENDCONNECTION ;'),
    (START, "top : TASK 'idle' COMMENT 'why' ; low : NEXTSTATE a VIA b ;"),
    (START, 'TASK x . y ( 1 ) ! in := 2 , z := CALL f ( n ) ;'),
    (START, 'OUTPUT done , set ( 1 , n ) ;'),
    (START, "CALL write ( 'n=' , n ) ; NEXTSTATE - * ;"),
    (START, 'DECISION ANY ; ( 0 ) : STOP ; ELSE : RETURN n ; ENDDECISION ;'),
    (ASKED, '( - 1 : 9 , > 20 , red ) : JOIN l ; ( TRUE ) :'),
    (TASK, 'speed : a or else b xor not c'),
    (TASK, 'a and then b = c + 1 * 2'),
    (TASK, '( a - b ) mod - x . f'),
    (TASK, '{ a , b + 1 , 2 }'),
    (TASK, '{ a 1 , b - 2 , c d }'),
    (TASK, '{ { } , { 1 } }'),
]


def productions(page):
    """The text of the productions that stand in the page behind its second grammar."""
    blocks = re.findall(r'```\n(.*?)```', page.split('## The text of SDL/PR', 1)[1].split('\n## ', 1)[0], re.S)
    lines = []
    for line in '\n'.join(blocks).split('\n'):
        # what stands behind the full stop of a production is an example
        lines.append(re.sub(r'(?<=\s)\.(\s+\S.*)?$', '.', line))
    text = '\n'.join(lines)
    return re.findall(r'^(\w+)\s*=\s(.*?)\s\.$', strip_examples(text), re.M | re.S)


def strip_examples(text):
    """Without the lines that hold an example alone, which are indented further than any production."""
    return '\n'.join(line for line in text.split('\n') if not line.startswith(' ' * 40))


def symbols(text):
    return re.findall(r'"[^"]*"|![^\s]+|[\w]+|[{}\[\]()|]', text)


class Grammar:
    def __init__(self, page):
        self.rules = {}
        for name, text in productions(page):
            text = ' '.join(text.split())
            for old, new in SENTENCES:
                text = text.replace(old, new)
            if name == 'field':
                text = 'name | ' + ' | '.join(KEYWORDS)
            self.words = symbols(text)
            self.at = 0
            self.rules[name] = self.alternatives(name)
            assert self.at == len(self.words), (name, self.words[self.at:])

    def alternatives(self, name):
        ways = [self.sequence(name)]
        while self.at < len(self.words) and self.words[self.at] == '|':
            self.at += 1
            ways.append(self.sequence(name))
        return ways

    def sequence(self, name):
        way = []
        while self.at < len(self.words) and self.words[self.at] not in ('|', ')', ']', '}'):
            word = self.words[self.at]
            self.at += 1
            if word in '([{':
                inner = f'{name}.{len(self.rules)}.{self.at}'
                ways = self.alternatives(name)
                self.at += 1
                if word == '[':
                    ways = ways + [()]
                if word == '{':
                    ways = [w + (inner,) for w in ways] + [()]
                self.rules[inner] = ways
                way.append(inner)
            else:
                way.append(word)
        return tuple(way)

    def takes(self, symbol, tokens, i):
        """Whether the symbol is the kind of the token of this number."""
        kind = tokens[i]
        if symbol.startswith('"'):
            return kind == symbol[1:-1]
        if symbol == 'name':
            return re.fullmatch(r'[a-zA-Z]\w*', kind) is not None and kind.upper() not in KEYWORDS
        if symbol == 'number':
            return kind.isdigit()
        if symbol == 'text':
            return kind.startswith("'")
        return kind.upper() == symbol

    def allows(self, symbol, tokens, i):
        """Whether the tokens from this number on are not those that the symbol forbids, as far as they are known."""
        if symbol == '!name-':
            return not (i + 1 < len(tokens) and self.takes('name', tokens, i) and tokens[i + 1] == '-')
        return not (i < len(tokens) and tokens[i].upper() == symbol[1:])

    def reached(self, tokens):
        """How many of the tokens a file begins with, and whether these alone are a file."""
        front = {('file', way, 0, 0) for way in self.rules['file']}
        sets = []
        for i in range(len(tokens) + 1):
            items = self.closed(front, sets, tokens, i)
            sets.append(items)
            if i == len(tokens):
                return i, any(name == 'file' and dot == len(way) and start == 0 for name, way, dot, start in items)
            front = {(n, w, d + 1, s) for n, w, d, s in items if d < len(w) and self.stands(w[d], tokens, i)}
            if not front:
                return i, False

    def stands(self, symbol, tokens, i):
        return symbol not in self.rules and not symbol.startswith('!') and self.takes(symbol, tokens, i)

    def closed(self, front, sets, tokens, i):
        items, work, waiting, done = set(), list(front), {}, {}
        while work:
            item = work.pop()
            if item in items:
                continue
            items.add(item)
            name, way, dot, start = item
            if dot == len(way):
                if start == i:
                    done[name] = True
                    work += [(n, w, d + 1, s) for n, w, d, s in waiting.get(name, [])]
                else:
                    work += [(n, w, d + 1, s) for n, w, d, s in sets[start] if d < len(w) and w[d] == name]
            elif way[dot] in self.rules:
                waiting.setdefault(way[dot], []).append(item)
                work += [(way[dot], w, 0, i) for w in self.rules[way[dot]]]
                if done.get(way[dot]):
                    work.append((name, way, dot + 1, start))
            elif way[dot].startswith('!') and self.allows(way[dot], tokens, i):
                work.append((name, way, dot + 1, start))
        return items

    def where(self, tokens):
        """The number of the first token that no file has there, or None."""
        if '{' in tokens:
            # two tokens are looked at there, so the second one is not known before it is met
            for n in range(1, len(tokens) + 1):
                if self.reached(tokens[:n])[0] < n:
                    return n - 1
        met, whole = self.reached(tokens)
        return None if whole else met


def mutations(around, text):
    before, behind = around[0].split(), around[1].split()
    tokens = text.split()
    for i in range(len(tokens)):
        yield before + tokens[:i + 1]
    for i in range(len(tokens)):
        yield before + tokens[:i] + tokens[i + 1:] + behind
    for i in range(len(tokens)):
        yield before + tokens[:i + 1] + tokens[i:] + behind
    for i in range(len(tokens) - 1):
        yield before + tokens[:i] + [tokens[i + 1], tokens[i]] + tokens[i + 2:] + behind


def main(page, to_input, to_output):
    grammar = Grammar(open(page).read())
    met = set()
    asked, answered = [], []
    for around, text in TEXTS:
        for tokens in [around[0].split() + text.split() + around[1].split(), *mutations(around, text)]:
            line = ' '.join(tokens)
            if line in met:
                continue
            met.add(line)
            wrong = grammar.where(tokens)
            if wrong is None:
                answer = 'right'
            else:
                column = len(line) + 1 if wrong == len(tokens) else len(' '.join(tokens[:wrong])) + (2 if wrong else 1)
                answer = f'S1 1:{column}'
            asked.append(f'where {line}\n')
            answered.append(f'== where {line}\n{answer}\n\n')
    open(to_input, 'w').writelines(asked)
    open(to_output, 'w').writelines(answered)


if __name__ == '__main__':
    main(*sys.argv[1:])
