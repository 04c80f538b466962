/* The same loop in plain C: one buffer, the frames walked by an index, the rest moved to the front once
   at least as much was given out. */
#include <stdint.h>
#include <stdio.h>
#include <stdlib.h>
#include <string.h>

#define PIECE 65536u
#define FRAME_LIMIT 262144u

static uint8_t *buffer;
static size_t len, from, cap;

static int feed(const uint8_t *piece, size_t n) {
    size_t left = len - from;
    if (from >= left) {
        memmove(buffer, buffer + from, left);
        len = left;
        from = 0;
    }
    if (len + n > cap) {
        cap = 2 * cap > len + n ? 2 * cap : len + n;
        buffer = realloc(buffer, cap);
        if (!buffer) return 0;
    }
    memcpy(buffer + len, piece, n);
    len += n;
    return 1;
}

static const uint8_t *next(size_t *n) {
    if (len - from < 4) return NULL;
    const uint8_t *p = buffer + from;
    uint32_t l = p[0] | p[1] << 8 | p[2] << 16 | (uint32_t)p[3] << 24;
    if (l > FRAME_LIMIT || len - from - 4 < l) return NULL;
    from += 4 + (size_t)l;
    *n = l;
    return p + 4;
}

static uint64_t frames, sum;

static void drain(void) {
    size_t n;
    const uint8_t *f;
    while ((f = next(&n))) {
        frames++;
        if (n) sum += f[0];
    }
}

int main(int argc, char **argv) {
    size_t l = argc > 1 ? strtoul(argv[1], 0, 10) : 100;
    size_t pieces = argc > 2 ? strtoul(argv[2], 0, 10) : 4096;
    size_t group = argc > 3 ? strtoul(argv[3], 0, 10) : 1;
    size_t unit = l + 4, total = 0, offset = 0;
    uint8_t *units = malloc(PIECE + 3 * unit);
    while (total <= PIECE + unit) {
        units[total] = l & 255, units[total + 1] = l >> 8 & 255, units[total + 2] = l >> 16 & 255, units[total + 3] = l >> 24;
        for (size_t i = 0; i < l; i++) units[total + 4 + i] = i % 251 + 1;
        total += unit;
    }
    for (size_t i = 0; i < pieces; i++) {
        if (!feed(units + offset, PIECE)) return 9;
        offset = (offset + PIECE) % unit;
        if (i % group == group - 1) drain();
    }
    drain();
    printf("%llu %llu\n", (unsigned long long)frames, (unsigned long long)sum);
    return 0;
}
