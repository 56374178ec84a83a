// Calls within calls: Fibonacci's numbers, Ackermann's function, the towers of Hanoi, eight queens, and two functions that call
// each other.
#include "told.h"

static unsigned fibonacci(unsigned n) { return n < 2 ? n : fibonacci(n - 1) + fibonacci(n - 2); }

static unsigned ackermann(unsigned m, unsigned n) {
    if (m == 0) return n + 1;
    if (n == 0) return ackermann(m - 1, 1);
    return ackermann(m - 1, ackermann(m, n - 1));
}

static unsigned moves;
static void hanoi(int n, int from, int to, int over) {
    if (n == 0) return;
    hanoi(n - 1, from, over, to);
    moves = moves * 7 + (unsigned)(from * 3 + to);
    hanoi(n - 1, over, to, from);
}

static unsigned queens(unsigned columns, unsigned left, unsigned right) {
    unsigned found = 0, open = ~(columns | left | right) & 255;
    if (columns == 255) return 1;
    while (open) {
        unsigned bit = open & -open;
        open ^= bit;
        found += queens(columns | bit, (left | bit) << 1, (right | bit) >> 1);
    }
    return found;
}

static int is_odd(int n);
__attribute__((noinline)) static int is_even(int n) { return n == 0 ? 1 : is_odd(n - 1); }
__attribute__((noinline)) static int is_odd(int n) { return n == 0 ? 0 : is_even(n - 1); }

PROGRAM {
    told(fibonacci(18));
    told(ackermann(2, 9));
    hanoi(10, 0, 2, 1);
    told(moves);
    told(queens(0, 0, 0));
    told((unsigned)(is_even(400) * 2 + is_odd(401)));
}
