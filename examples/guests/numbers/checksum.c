// Checksums of 3,000 bytes: Adler-32, CRC-32 by a table, FNV-1a of 32 and 64 bits.
#include "told.h"

static unsigned char text[3000];
static unsigned table[256];

static unsigned adler(int count) {
    unsigned low = 1, high = 0;
    for (int i = 0; i < count; i++) { low = (low + text[i]) % 65521; high = (high + low) % 65521; }
    return high << 16 | low;
}

static unsigned crc(int count) {
    for (unsigned n = 0; n < 256; n++) {
        unsigned c = n;
        for (int k = 0; k < 8; k++) c = c & 1 ? 0xedb88320u ^ c >> 1 : c >> 1;
        table[n] = c;
    }
    unsigned c = 0xffffffffu;
    for (int i = 0; i < count; i++) c = table[(c ^ text[i]) & 255] ^ c >> 8;
    return ~c;
}

static unsigned fnv(int count) {
    unsigned h = 2166136261u;
    for (int i = 0; i < count; i++) h = (h ^ text[i]) * 16777619u;
    return h;
}

static unsigned long long wide_fnv(int count) {
    unsigned long long h = 14695981039346656037ull;
    for (int i = 0; i < count; i++) h = (h ^ text[i]) * 1099511628211ull;
    return h;
}

PROGRAM {
    for (int i = 0; i < 3000; i++) text[i] = (unsigned char)drawn();
    told(adler(3000));
    told(crc(3000));
    told(fnv(3000));
    told(wide_fnv(3000));
}
