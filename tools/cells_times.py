#!/usr/bin/env python3
"""Measures how long `og run` takes: statements that assign to the middle item of an array, by the size of the array, and
a run over a million stimuli, beside the same C as gcc compiles it. That of statements that assign to one item after the
other is told too, and judged nowhere: it goes through more memory, the larger the array is.

    (cd crates/og_main && rt run) ; tools/cells_times.py

Each time is the least processor time of nine processes. From that of the arrays the time of a process is taken that
carries out no assignment. The status is 1 where the times for the middle item differ by more than a tenth, where the run
takes more than twice the time of the compiled C, or where a trace is not the one that is wanted.
"""
import os
import resource
import subprocess
import sys
import tempfile

HERE = os.path.dirname(os.path.abspath(__file__))
PROGRAM = os.path.join(HERE, '../crates/og_main/out/og_main')
SIZES = (16, 4_096, 65_536)
TURNS = 2_000_000
STIMULI = 1_000_000
READINGS = 9

MODEL = '''SYSTEM lamp; SIGNAL press; BLOCK b; PROCESS p;
START; NEXTSTATE dark;
STATE dark; INPUT press; NEXTSTATE bright; ENDSTATE;
STATE bright; INPUT press; NEXTSTATE dark; ENDSTATE;
ENDPROCESS; ENDBLOCK; ENDSYSTEM;
'''

# Five statements a turn, one of them an assignment to an item.
ARRAY = '''#include <stdint.h>
typedef struct { int64_t e[%d]; } A;
int64_t r; int64_t stopped; int64_t f_kind; int64_t f_file; int64_t f_line; int64_t f_column; int64_t i; A w;
void start(void) {
    turn:;
    if (i == INT64_C(%d)) goto done;
    w.e[%s] = i;
    i = i + INT64_C(1);
    goto turn;
    done:;
}
void on_press(void) { }
'''

# Drives a program as `og run` does, and prints the same trace.
MAIN = '''#include <stdio.h>
#include <string.h>
#include <stdint.h>
extern int64_t r;
extern int64_t stopped;
extern int64_t f_kind;
void start(void);
void on_press(void);
static void tell(void) {
    if (f_kind != 0) puts("fault");
    else if (stopped != 0) puts("stopped");
    else printf("rest\\nstate %s\\n", r == 0 ? "dark" : "bright");
}
int main(int count, char **words) {
    char line[256];
    FILE *stimuli = fopen(words[1], "r");
    if (count != 2 || stimuli == NULL) return 1;
    puts("> start");
    start();
    tell();
    while (fgets(line, sizeof line, stimuli) != NULL) {
        line[strcspn(line, "\\n")] = 0;
        if (strcmp(line, "press") != 0) return 1;
        printf("> %s\\n", line);
        on_press();
        tell();
    }
    return 0;
}
'''


def seconds(words, readings=READINGS):
    """The least processor seconds of a process of these words, and what it printed."""
    found, told = [], b''
    for _ in range(readings):
        before = resource.getrusage(resource.RUSAGE_CHILDREN)
        told = subprocess.run(words, capture_output=True, check=True).stdout
        after = resource.getrusage(resource.RUSAGE_CHILDREN)
        found.append(after.ru_utime - before.ru_utime + after.ru_stime - before.ru_stime)
    return min(found), told


def written(name, text):
    with open(name, 'w', encoding='ascii') as file:
        file.write(text)
    return name


def middle(size):
    """The index of one item, which is the same in each turn."""
    return f'INT64_C({size // 2})'


def walk(size):
    """The index of one item after the other."""
    return f'i % INT64_C({size})'


def one_array(index, size, turns):
    text = written('array.c', ARRAY % (size, turns, index(size)))
    took, told = seconds([PROGRAM, 'run', 'lamp.pr', text, 'empty.stim', '--steps', '1000000000'])
    if told != b'> start\nrest\nstate dark\n':
        sys.exit(f'an array of {size}: the trace is {told[:99]}')
    return took


def arrays(index, told):
    """Whether the times by the size of the array are the same within a tenth."""
    found = []
    for size in SIZES:
        took = one_array(index, size, TURNS) - one_array(index, size, 0)
        found.append(took)
        print(f'an array of {size} items, {told}: {5 * TURNS / took / 1e6:.2f} million statements a second')
    return max(found) <= 1.1 * min(found)


def million():
    text = subprocess.run([PROGRAM, 'cc', 'lamp.pr'], capture_output=True, check=True, text=True).stdout
    subprocess.run(['gcc', '-O2', '-o', 'lamp', written('lamp.c', text), written('main.c', MAIN)], check=True)
    written('many.stim', 'press\n' * STIMULI)
    ours, trace = seconds([PROGRAM, 'run', 'lamp.pr', 'lamp.c', 'many.stim'])
    compiled, wanted = seconds(['./lamp', 'many.stim'])
    if trace != wanted:
        sys.exit('the traces differ')
    print(f'{STIMULI} stimuli: {ours:.3f} s, compiled {compiled:.3f} s')
    return ours <= 2 * compiled


def main():
    with tempfile.TemporaryDirectory() as folder:
        os.chdir(folder)
        written('lamp.pr', MODEL)
        written('empty.stim', '')
        fine = [arrays(middle, 'one of them assigned to'), million()]
        arrays(walk, 'each assigned to in turn')
    sys.exit(0 if all(fine) else 1)


main()
