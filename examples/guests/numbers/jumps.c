// A switch of many cases, which becomes a table of branches, and calls through a table of functions.
#include "told.h"

static int more(int n) { return n + 1; }
static int thrice(int n) { return n * 3; }
static int flipped(int n) { return n ^ 0x55; }
static int third(int n) { return -n / 3; }
static int (*const calls[4])(int) = {more, thrice, flipped, third};

__attribute__((noinline)) static unsigned kind(unsigned n) {
    unsigned made = n;
    switch (n) {
    case 0: return 7;
    case 1: made = 99; break;
    case 2: made += n * n + 5; // and on
    case 3: made ^= 1000; break;
    case 4: return ~n;
    case 5: made = n << 9; break;
    case 6: made = made > 3 ? made * 11 : made; break;
    case 9: return kind(n - 7);
    default: made = n % 13;
    }
    return made * 2 + 1;
}

// A small machine with instructions of its own.
static const unsigned char program[] = {0, 10, 1, 3, 2, 1, 4, 0, 5, 6, 2, 0, 3, 1, 6};
static unsigned run(unsigned start) {
    unsigned at = 0, value = start;
    for (int steps = 0; steps < 200; steps++) {
        switch (program[at % sizeof program]) {
        case 0: value += program[(at + 1) % sizeof program]; at += 2; break;
        case 1: value *= 3; at++; break;
        case 2: value ^= value >> 3; at++; break;
        case 3: value = value << 5 | value >> 27; at++; break;
        case 4: at = value & 1 ? at + 1 : at + 2; break;
        case 5: value -= 17; at++; break;
        default: at += 1 + (value & 3);
        }
    }
    return value;
}

PROGRAM {
    int made = 3;
    for (int i = 0; i < 200; i++) made = calls[drawn() % 4](made) % 100000;
    told((unsigned)made);
    for (unsigned n = 0; n < 12; n++) told(kind(n));
    for (unsigned n = 0; n < 4; n++) told(run(n * 1000003u));
}
