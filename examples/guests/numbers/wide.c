// Arithmetic of 64 bits: shifts, signed and unsigned division and remainder, counts of bits, comparison, and numbers in memory.
#include "told.h"

typedef unsigned long long wide;
static wide kept[64];

static wide power(wide base, wide exponent, wide modulus) {
    wide made = 1;
    for (base %= modulus; exponent; exponent >>= 1) {
        if (exponent & 1) made = made * base % modulus;
        base = base * base % modulus;
    }
    return made;
}

static wide root(wide n) {
    wide low = 0, high = 4294967295ull;
    while (low < high) {
        wide middle = low + (high - low + 1) / 2;
        if (middle * middle <= n) low = middle; else high = middle - 1;
    }
    return low;
}

PROGRAM {
    wide bits = 88172645463325252ull;
    long long sum = -1234567890123ll;
    for (int i = 0; i < 64; i++) {
        bits ^= bits << 13;
        bits ^= bits >> 7;
        bits ^= bits << 17;
        kept[i] = bits;
        sum += (long long)bits / (long long)(i + 3);
        sum ^= sum >> 5;
        sum = sum * 7 - (long long)(bits % 1000003u);
        if (sum % 11 < 0) sum -= (long long)(bits >> (i & 63)) % 97;
    }
    told(bits);
    told((wide)sum);
    wide mixed = 0;
    for (int i = 0; i < 64; i++) mixed = (mixed << 9 | mixed >> 55) ^ kept[63 - i] ^ (wide)(int)kept[i] ^ (wide)(signed char)kept[i];
    told(mixed);
    told((wide)__builtin_clzll(bits >> 9));
    told((wide)__builtin_ctzll(bits << 21));
    told((wide)__builtin_popcountll(mixed));
    told(power(bits, 1000003, 2147483647));
    told(root(bits));
    told((wide)((long long)mixed < sum) * 2 + (mixed < (wide)sum));
}
