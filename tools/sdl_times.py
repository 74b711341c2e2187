#!/usr/bin/env python3
"""Measures how the time of `parse_units` grows with the length of a file of SDL/PR, beside a C compiler that reads a
file of the same length.

    (cd crates/og_sdl_cases && rt run) && tools/sdl_times.py

The files hold processes with states, decisions and assignments, 1, 4 and 16 MB of them. Told is the least processor
time of five processes that read a file, with its bytes cut into tokens, and that of `gcc -fsyntax-only` on C with as
many bytes. Then two files at their limits: a process with 200,000 states, and 64 MiB of opening brackets. The
status is 1 where the exponent is over 1.1, where the compiler is faster, or where one of these files is answered
otherwise than it should be.
"""
import math
import os
import resource
import subprocess
import sys
import tempfile

PROGRAM = os.path.join(os.path.dirname(os.path.abspath(__file__)), '../crates/og_sdl_cases/out/og_sdl_cases')
SIZES = (1_000_000, 4_000_000, 16_000_000)
PROCESS = '''PROCESS p#;
  DCL n, m T_Count := 0;
  START; NEXTSTATE idle;
  STATE idle;
    INPUT go(n); /* a comment of some words */
      DECISION n;
        (0): NEXTSTATE -;
        (1:9): TASK m := (m + n * 2) mod 17, n := { a 1, b x.y(m) };
        ELSE: OUTPUT done(n, m); CALL log('gone', n);
      ENDDECISION;
      NEXTSTATE busy;
  ENDSTATE;
  STATE busy; PROVIDED n >= m and not ok; PRIORITY 1; TASK n := n - 1; NEXTSTATE idle; ENDSTATE busy;
ENDPROCESS p#;
'''
FUNCTION = '''static int p#(struct s *x, int n, int m) {
  /* a comment of some words */
  if (n == 0) {
    return -1;
  }
  switch (n) {
    case 1: m = (m + n * 2) % 17; n = x->y[m]; break;
    case 2: m = m - 1; break;
    default: done(n, m); log_("gone", n); break;
  }
  while (n >= m && !x->ok) {
    n = n - 1;
  }
  return n;
}
'''
HEAD = 'struct s { int ok; int y[20]; };\nvoid done(int n, int m);\nvoid log_(const char *text, int n);\n'


def text_of(head, part, size):
    parts, length, i = [head], len(head), 0
    while length < size:
        parts.append(part.replace('#', str(i)))
        length += len(parts[-1])
        i += 1
    return ''.join(parts), i


def seconds(call, given, folder, readings=5):
    """The least processor seconds of a process, and what it writes."""
    found, answer = [], ''
    for _ in range(readings):
        before = resource.getrusage(resource.RUSAGE_CHILDREN)
        answer = subprocess.run(call, input=given, capture_output=True, text=True, check=True, cwd=folder).stdout
        after = resource.getrusage(resource.RUSAGE_CHILDREN)
        found.append(after.ru_utime - before.ru_utime + after.ru_stime - before.ru_stime)
    return min(found), answer


def one_size(size, folder):
    model, units = text_of('', PROCESS, size)
    with open(os.path.join(folder, 'model.pr'), 'w') as f:
        f.write(model)
    with open(os.path.join(folder, 'program.c'), 'w') as f:
        f.write(text_of(HEAD, FUNCTION, size)[0])
    took, answer = seconds([PROGRAM], 'units model.pr\n', folder)
    if answer != f'== units model.pr\n{units}\n\n':
        sys.exit(f'the answer is {answer}')
    compiler, _ = seconds(['gcc', '-fsyntax-only', 'program.c'], '', folder)
    return took, compiler


def limits(folder):
    """Whether the files at their limits are answered as they should be."""
    states = ''.join(f'STATE s{i};\nENDSTATE;\n' for i in range(200_000))
    right = True
    for name, text, wanted in (
        ('200,000 states', f'PROCESS p; START; NEXTSTATE s0;\n{states}ENDPROCESS;\n', '1'),
        ('64 MiB of brackets', '(' * 67_108_864, 'S1 1:1'),
    ):
        with open(os.path.join(folder, 'model.pr'), 'w') as f:
            f.write(text)
        took, answer = seconds([PROGRAM], 'units model.pr\n', folder, readings=1)
        right = right and answer == f'== units model.pr\n{wanted}\n\n'
        print(f'{name}: {answer.split(chr(10))[1]} after {took * 1000:.0f} ms')
    return right


def main():
    print('| bytes | parse_units | gcc -fsyntax-only |')
    print('|---|---|---|')
    found = []
    with tempfile.TemporaryDirectory() as folder:
        for size in SIZES:
            took, compiler = one_size(size, folder)
            found.append((took, compiler))
            print(f'| {size:,} | {took * 1000:.0f} ms | {compiler * 1000:.0f} ms |', flush=True)
        right = limits(folder)
    exponent = math.log(found[-1][0] / found[0][0]) / math.log(SIZES[-1] / SIZES[0])
    print(f'the exponent is {exponent:.2f}')
    return not right or exponent > 1.1 or any(took > compiler for took, compiler in found)


if __name__ == '__main__':
    sys.exit(main())
