// A program that tells numbers: as a guest by an import, natively by printing them, one a line.
#ifdef __wasm__
__attribute__((import_module("numbers"), import_name("told"))) void told(unsigned long long number);
#define PROGRAM __attribute__((export_name("_start"))) void _start(void)
#else
#include <stdio.h>
static void told(unsigned long long number) { printf("%llu\n", number); }
#define PROGRAM int main(void)
#endif

// Numbers that look random, the same in each run.
static unsigned seed = 12345;
static unsigned drawn(void) { seed = seed * 1103515245u + 12345u; return seed >> 8; }
