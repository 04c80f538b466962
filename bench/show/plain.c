/* The same job as `artery show` on ordinary frames, in plain C: for comparison alone. */
#include <stdint.h>
#include <stdio.h>
#include <stdlib.h>
#include <string.h>
#include <unistd.h>

enum { PIECE = 65536, LIMIT = 262144, HEADER = 28, ROOM = 2 * (LIMIT + 4 + PIECE) };

static uint8_t held[ROOM];
static size_t from, to;
static char *text;
static size_t written, room;

static void need(size_t more) {
    if (written + more <= room) return;
    while (room < written + more) room = room ? 2 * room : 1 << 16;
    text = realloc(text, room);
    if (!text) exit(9);
}
static void put(const char *bytes, size_t len) { need(len); memcpy(text + written, bytes, len); written += len; }
static void put_text(const char *word) { put(word, strlen(word)); }
static void put_number(uint64_t n) {
    char digits[20];
    size_t at = 20;
    do { digits[--at] = '0' + n % 10; n /= 10; } while (n);
    put(digits + at, 20 - at);
}
static void put_signed(int32_t n) {
    if (n < 0) { put("-", 1); put_number(-(int64_t)n); } else put_number(n);
}
static const char hex_digits[] = "0123456789abcdef";
static void put_hex(const uint8_t *bytes, size_t len) {
    if (!len) { put("-", 1); return; }
    need(2 * len);
    for (size_t i = 0; i < len; i++) {
        text[written++] = hex_digits[bytes[i] >> 4];
        text[written++] = hex_digits[bytes[i] & 15];
    }
}
static void put_word(const uint8_t *bytes, size_t len) {
    if (!len) { put("-", 1); return; }
    for (size_t i = 0; i < len; i++) {
        uint8_t b = bytes[i];
        int plain = b > 32 && b < 127 && b != '%';
        if (i == 0 && (b == '@' || (b == '-' && len == 1))) plain = 0;
        if (plain) { need(1); text[written++] = b; continue; }
        need(3);
        text[written++] = '%';
        text[written++] = hex_digits[b >> 4];
        text[written++] = hex_digits[b & 15];
    }
}
static uint32_t number32(const uint8_t *b) { return b[0] | b[1] << 8 | b[2] << 16 | (uint32_t)b[3] << 24; }
static uint64_t number64(const uint8_t *b) { return number32(b) | (uint64_t)number32(b + 4) << 32; }

struct name { int index; uint32_t number; const uint8_t *text; size_t len; };
static const char *names[] = {"sender", "recipient", "manifest"};

static const char *read_name(uint32_t tag, const uint8_t **at, const uint8_t *end, struct name *name) {
    name->index = tag >= 1u << 24;
    if (name->index) { name->number = tag & 0xffff; return NULL; }
    if (end - *at < 2) return "literal-past ";
    name->len = (*at)[0] | (*at)[1] << 8;
    name->text = *at + 2;
    if ((size_t)(end - name->text) < name->len) return "literal-past ";
    for (size_t i = 0; i < name->len; i++) if (name->text[i] > 127) return "not-ascii ";
    *at = name->text + name->len;
    return NULL;
}
static void put_name(const struct name *name) {
    put(" ", 1);
    if (name->index) { put("@", 1); put_number(name->number); } else put_word(name->text, name->len);
}
static void put_frame(const uint8_t *b, size_t len) {
    if (len < HEADER) { put_text("drop short "); put_number(len); put("\n", 1); return; }
    if (b[0]) { put_text("drop version "); put_number(b[0]); put("\n", 1); return; }
    if (b[1] & 1) { put_text("drop metadata\n"); return; }
    struct name name[3];
    const uint8_t *at = b + HEADER, *end = b + len;
    for (int i = 0; i < 3; i++) {
        const char *fault = read_name(number32(b + 16 + 4 * i), &at, end, &name[i]);
        if (fault) { put_text("drop "); put_text(fault); put_text(names[i]); put("\n", 1); return; }
    }
    put_text("frame ");
    put_number(number64(b + 4)); put(" ", 1);
    put_number(b[2]); put(" ", 1);
    put_number(b[3]); put(" ", 1);
    put_signed((int32_t)number32(b + 12));
    for (int i = 0; i < 3; i++) put_name(&name[i]);
    put(" ", 1);
    put_hex(at, end - at);
    put("\n", 1);
}
static void flush(void) {
    for (size_t done = 0; done < written;) {
        ssize_t n = write(1, text + done, written - done);
        if (n <= 0) exit(4);
        done += n;
    }
    written = 0;
}
int main(void) {
    static uint8_t piece[PIECE];
    int begun = 0;
    for (;;) {
        ssize_t n = read(0, piece, PIECE);
        if (n < 0) return 3;
        if (n == 0) break;
        if (from > LIMIT + 4) { memmove(held, held + from, to - from); to -= from; from = 0; }
        memcpy(held + to, piece, n);
        to += n;
        if (!begun && to - from >= 5) {
            if (memcmp(held, "AKKA", 4)) return 1;
            put_text("stream "); put_number(held[4]); put("\n", 1);
            from = 5;
            begun = 1;
        }
        while (begun && to - from >= 4) {
            uint32_t len = number32(held + from);
            if (len > LIMIT) return 1;
            if (to - from - 4 < len) break;
            put_frame(held + from + 4, len);
            from += 4 + len;
        }
        flush();
    }
    put_text("rest "); put_number(to - from); put("\n", 1);
    flush();
    return 0;
}
