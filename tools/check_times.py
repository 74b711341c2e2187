#!/usr/bin/env python3
"""Measures `og check` on modules of ASN.1 with many types, beside `gcc -fsyntax-only` on C of as many bytes.

    (cd crates/og_main && rt run) ; tools/check_times.py

Of each four types one is an INTEGER with a range, one is ENUMERATED, one a SEQUENCE OF and one a SEQUENCE. Each time is
the least processor time of nine processes. The status is 1 where the time grows faster than the number of types to the
power of 1.1, where the check takes longer than gcc does, or where it does not accept the files.
"""
import math
import os
import resource
import subprocess
import sys
import tempfile

PROGRAM = os.path.join(os.path.dirname(os.path.abspath(__file__)), '../crates/og_main/out/og_main')
SIZES = (5_000, 50_000)
READINGS = 9

MODEL = '''SYSTEM lamp; SIGNAL press; BLOCK b; PROCESS p;
START; NEXTSTATE dark;
STATE dark; INPUT press; NEXTSTATE dark; ENDSTATE;
ENDPROCESS; ENDBLOCK; ENDSYSTEM;
'''

ASN_TYPES = '''N{0} ::= INTEGER (0 .. {1})
E{0} ::= ENUMERATED {{ off{0}, on{0} (7), broken{0} }}
L{0} ::= SEQUENCE (SIZE (0 .. 8)) OF N{0}
S{0} ::= SEQUENCE {{ number N{0}, state E{0}, list L{0} }}
'''

C_TYPES = '''typedef int64_t N{0};
typedef enum {{ off{0}, on{0} = 7, broken{0} }} E{0};
typedef struct {{ uint32_t length; N{0} items[8]; }} L{0};
typedef struct {{ N{0} number; E{0} state; L{0} list; }} S{0};
'''


def module_of(types):
    """A module that declares so many types."""
    groups = (ASN_TYPES.format(i, i + 9) for i in range(types // 4))
    return 'Many DEFINITIONS AUTOMATIC TAGS ::= BEGIN\n' + ''.join(groups) + 'END\n'


def c_of(size):
    """C that declares such types, cut behind the first group that makes it as many bytes."""
    parts, length, i = ['#include <stdint.h>\n'], 20, 0
    while length < size:
        parts.append(C_TYPES.format(i))
        length += len(parts[-1])
        i += 1
    return ''.join(parts)


def seconds(words, folder):
    """The least processor seconds of a process of these words, and what it printed."""
    found, answer = [], ''
    for _ in range(READINGS):
        before = resource.getrusage(resource.RUSAGE_CHILDREN)
        answer = subprocess.run(words, cwd=folder, capture_output=True, text=True, check=False).stdout
        after = resource.getrusage(resource.RUSAGE_CHILDREN)
        found.append(after.ru_utime - before.ru_utime + after.ru_stime - before.ru_stime)
    return min(found), answer


def write(folder, name, text):
    with open(os.path.join(folder, name), 'w', encoding='ascii') as file:
        file.write(text)


def one_size(folder, types):
    """The seconds of the check and of gcc for so many types."""
    module = module_of(types)
    write(folder, 'many.asn', module)
    write(folder, 'many.c', c_of(len(module)))
    check, answer = seconds([os.path.abspath(PROGRAM), 'check', 'p.pr', 'many.asn'], folder)
    if answer != 'accepted p\n':
        sys.exit(f'{types} types: the answer is {answer!r}')
    compiled, _ = seconds(['gcc', '-fsyntax-only', 'many.c'], folder)
    print(f'{types:6} types, {len(module):8} bytes: check {check * 1000:8.1f} ms, gcc {compiled * 1000:8.1f} ms')
    return check, compiled


def main():
    if not os.path.exists(PROGRAM):
        sys.exit('the program is not built: (cd crates/og_main && rt run)')
    with tempfile.TemporaryDirectory() as folder:
        write(folder, 'p.pr', MODEL)
        times = [one_size(folder, types) for types in SIZES]
    (few, _), (many, compiled) = times
    exponent = math.log(many / few) / math.log(SIZES[1] / SIZES[0])
    print(f'exponent {exponent:.2f}, check to gcc {many / compiled:.2f}')
    return int(exponent > 1.1 or many > compiled)


if __name__ == '__main__':
    sys.exit(main())
