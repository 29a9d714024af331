// A session from standard input through the library's header, as a C program would feed it: what examples/check compares with portbench's lines.
// With the argument `shift` the library signs by the bit shift instead of the tables.

#include <stdbool.h>
#include <stdint.h>
#include <stdio.h>
#include <string.h>

#include "../include/whakelouna.h"

enum { FULL, BAD, CUT, END };

int main(int count, char **arguments)
{
    static uint8_t octets[1000], out[1152];
    bool shift = count == 2 && strcmp(arguments[1], "shift") == 0;
    struct whakelouna_state state = whakelouna_session_start();
    size_t held = 0, got = 0;
    bool bad = false;
    do {
        got = fread(octets + held, 1, sizeof octets - held, stdin);
        held += got;
        struct whakelouna_fed_told told;
        do {
            told = whakelouna_session_feed(shift, state, octets, held, out, sizeof out);
            state = told.state;
            fwrite(out, 1, told.written, stdout);
            held -= told.used;
            memmove(octets, octets + told.used, held);
        } while (told.stop == FULL);
        bad = told.stop == BAD;
    } while (got > 0 && !bad);
    fwrite(out, 1, whakelouna_session_finish(state, held > 0, out, sizeof out), stdout);
}
