#include <stdint.h>

int64_t r;
int64_t stopped;
int64_t f_kind;
int64_t f_file;
int64_t f_line;
int64_t f_column;
int64_t chosen;

void transition(void)
{
    switch (chosen) {
    case INT64_C(0): goto start__1;
    case INT64_C(1): goto dark__press__2;
    case INT64_C(2): goto bright__press__3;
    default: goto end__8;
    }
start__1:;
    goto enter__dark__4;
dark__press__2:;
    goto enter__bright__6;
bright__press__3:;
    goto enter__dark__4;
enter__dark__4:;
    r = INT64_C(0);
    return;
enter__bright__6:;
    r = INT64_C(1);
    return;
end__8:;
    return;
}

void start(void)
{
    r = -INT64_C(1);
    chosen = INT64_C(0);
    transition();
    return;
}

void on_press(void)
{
    if (stopped != INT64_C(0)) goto end__8;
    switch (r) {
    case INT64_C(0): goto dark__press__2;
    case INT64_C(1): goto bright__press__5;
    default: goto end__8;
    }
dark__press__2:;
    chosen = INT64_C(1);
    transition();
    return;
bright__press__5:;
    chosen = INT64_C(2);
    transition();
    return;
end__8:;
    return;
}
