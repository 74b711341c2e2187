#!/usr/bin/env python3
"""Measures how the time of og_grammar's `derive` grows with the number of tokens, on the grammar for trial.

    (cd crates/og_grammar_cases && rt run) && tools/times.py

Each shape of a text is read with some 100,000, 300,000 and 1,000,000 tokens, by a process of its own nine times; told is
the least processor time, less that of a process that reads an empty line. The exponent is that of the time from the
shortest text to the longest: 1 is linear. The status is 1 where an exponent is over 1.1, or an answer is not the one
that is wanted.
"""
import math
import os
import resource
import subprocess
import sys

PROGRAM = os.path.join(os.path.dirname(os.path.abspath(__file__)), '../crates/og_grammar_cases/out/og_grammar_cases')
SIZES = (100_000, 300_000, 1_000_000)
LARGE = 100_000_000
HEAD = 'STATE s ; INPUT i ;'
# a name, the tokens of one turn, a limit, the words before it, with N for the number of turns, and how the answer begins
SHAPES = [
    ('a list of names', 2, 64, 'DCL a N*,~a t ; End', 'a sentence'),
    ('states with a transition', 11, 64, 'N*STATE~s~;~INPUT~i~;~NEXTSTATE~s~;~ENDSTATE~; End', 'a sentence'),
    ('assignments of one task', 8, 64, HEAD + ' TASK x := 1 N*,~y~.~f~:=~1~+~2 ; STOP ; ENDSTATE ; End', 'a sentence'),
    ('a sum, its operators nested', 2, LARGE, 'DCL a t := 1 N*+~1 ; End', 'a sentence'),
    ('signs, nested', 1, LARGE, 'DCL a t := N*- 1 ; End', 'a sentence'),
    ('brackets, nested', 2, LARGE, 'DCL a t := N*( 1 N*) ; End', 'a sentence'),
    ('indices, nested', 3, LARGE, 'DCL a t := N*x~( 1 N*) ; End', 'a sentence'),
    ('braces, nested', 2, LARGE, 'DCL a t := N*{ N*} ; End', 'a sentence'),
    ('choice values, nested', 2, LARGE, 'DCL a t := N*c~: 1 ; End', 'a sentence'),
    ('decisions, nested', 10, LARGE, HEAD + ' N*DECISION~x~;~(~1~)~: STOP ; N*ENDDECISION~; ENDSTATE ; End', 'a sentence'),
    ('wrong at the last token', 2, 64, 'DCL a N*,~a ; End', 'wrong at'),
    ('a bracket too few', 2, LARGE, 'DCL a t := N*( 1 N*)', 'cut off'),
    ('one nesting too deep, at half', 2, None, 'DCL a t := N*( ( 1 ) N*) ; End', 'too deep at'),
    ('wrong at once', 1, 64, 'N*; End', 'wrong at 0'),
]


def seconds(line, readings=9):
    """The least processor seconds of a process that reads this line, and its answer."""
    found, answer = [], ''
    for _ in range(readings):
        before = resource.getrusage(resource.RUSAGE_CHILDREN)
        answer = subprocess.run([PROGRAM], input=line + '\n', capture_output=True, text=True, check=True).stdout
        after = resource.getrusage(resource.RUSAGE_CHILDREN)
        found.append(after.ru_utime - before.ru_utime + after.ru_stime - before.ru_stime)
    return min(found), answer.strip()


def one_reading(shape, size, nothing):
    name, each, limit, words, wanted = shape
    turns = size // each
    took, answer = seconds(f'{turns if limit is None else limit} ' + words.replace('N*', f'{turns}*'))
    if not answer.startswith(wanted):
        sys.exit(f'{name}: the answer is {answer}')
    return took - nothing


def main():
    worst = 0
    print('| text | ' + ' | '.join(f'{size:,} tokens' for size in SIZES) + ' | exponent |')
    print('|---|' + '---|' * (len(SIZES) + 1))
    nothing, _ = seconds('', 50)
    for shape in SHAPES:
        found = [one_reading(shape, size, nothing) for size in SIZES]
        exponent = math.log(found[-1] / found[0]) / math.log(SIZES[-1] / SIZES[0])
        worst = max(worst, exponent)
        print(f'| {shape[0]} | ' + ' | '.join(f'{took * 1000:.1f} ms' for took in found) + f' | {exponent:.2f} |', flush=True)
    for line, wanted in (('64 End', 'a sentence'), ('64', 'cut off')):
        took, answer = seconds(line, 50)
        if not answer.startswith(wanted):
            sys.exit(f'{line}: the answer is {answer}')
        print(f'"{line}": {(took - nothing) * 1000:.1f} ms')
    print(f'the largest exponent is {worst:.2f}')
    return worst > 1.1


if __name__ == '__main__':
    sys.exit(main())
