/* Lines in, text out. */
#include <stdio.h>
#include <stdlib.h>
#include <string.h>

#include "text.h"

static uint8_t space[1 << 20];
struct text out = { space, sizeof space, 0 };
unsigned long faults;

void die(const char *why, const char *what)
{
    fprintf(stderr, "driver: %s%s\n", why, what);
    exit(2);
}

void fault(const char *what)
{
    if (faults++ == 0)
        fprintf(stderr, "driver: not so: %s\n", what);
}

void flush(void)
{
    if (fwrite(out.bytes, 1, out.n, stdout) != out.n || fflush(stdout) != 0)
        die("cannot write", "");
    out.n = 0;
}

/* ---- Putting */

void put_bytes(struct text *t, const uint8_t *bytes, size_t n)
{
    if (t == &out && n > t->size - t->n)
        flush();
    if (n > t->size - t->n)
        die("a buffer is too small", "");
    memcpy(t->bytes + t->n, bytes, n);
    t->n += n;
}

void put_byte(struct text *t, uint8_t byte) { put_bytes(t, &byte, 1); }

void put_text(struct text *t, const char *text) { put_bytes(t, (const uint8_t *)text, strlen(text)); }

void put_number(struct text *t, uint64_t n)
{
    uint8_t digits[20];
    size_t at = sizeof digits;
    do
        digits[--at] = (uint8_t)('0' + n % 10);
    while (n /= 10);
    put_bytes(t, digits + at, sizeof digits - at);
}

void put_field(struct text *t, const char *name, uint64_t n)
{
    put_text(t, name);
    put_number(t, n);
}

void put_hex(struct text *t, const uint8_t *bytes, size_t n)
{
    static const char digits[] = "0123456789abcdef";
    for (size_t i = 0; i < n; i++) {
        uint8_t two[2] = { (uint8_t)digits[bytes[i] >> 4], (uint8_t)digits[bytes[i] & 15] };
        put_bytes(t, two, 2);
    }
}

void put_hex32(struct text *t, uint32_t n)
{
    uint8_t four[4] = { (uint8_t)(n >> 24), (uint8_t)(n >> 16), (uint8_t)(n >> 8), (uint8_t)n };
    put_hex(t, four, 4);
}

/* ---- Spans */

int is_same(struct span a, struct span b) { return a.n == b.n && memcmp(a.bytes, b.bytes, a.n) == 0; }

int is_text(struct span s, const char *text)
{
    struct span other = { (const uint8_t *)text, strlen(text) };
    return is_same(s, other);
}

struct span written(const struct text *t)
{
    struct span s = { t->bytes, t->n };
    return s;
}

static size_t word_end(struct span s)
{
    const uint8_t *gap = memchr(s.bytes, ' ', s.n);
    return gap ? (size_t)(gap - s.bytes) : s.n;
}

struct span first_word(struct span s)
{
    s.n = word_end(s);
    return s;
}

struct span behind_word(struct span s)
{
    size_t at = word_end(s);
    if (at < s.n)
        at++;
    s.bytes += at, s.n -= at;
    return s;
}

int number_in(struct span s, uint64_t most, uint64_t *n)
{
    *n = 0;
    for (size_t i = 0; i < s.n; i++) {
        if (s.bytes[i] < '0' || s.bytes[i] > '9')
            return 0;
        *n = *n * 10 + (s.bytes[i] - '0');
        if (*n > most)
            return 0;
    }
    return s.n > 0;
}

static int digit(uint8_t c) { return c >= '0' && c <= '9' ? c - '0' : c >= 'a' && c <= 'f' ? c - 'a' + 10 : -1; }

long decode(struct span digits, uint8_t *bytes, size_t size)
{
    if (digits.n % 2 || digits.n / 2 > size)
        return -1;
    for (size_t i = 0; i < digits.n; i += 2) {
        int high = digit(digits.bytes[i]), low = digit(digits.bytes[i + 1]);
        if (high < 0 || low < 0)
            return -1;
        bytes[i / 2] = (uint8_t)(high * 16 + low);
    }
    return (long)(digits.n / 2);
}

/* ---- Files */

struct lines {
    FILE *file;
    size_t from, to;
    uint8_t bytes[1 << 20];
};

struct lines *open_lines(const char *path)
{
    static struct lines in;
    in.from = in.to = 0;
    in.file = path ? fopen(path, "rb") : stdin;
    if (!in.file)
        die("cannot open ", path);
    return &in;
}

int next_line(struct lines *in, struct span *line)
{
    for (;;) {
        uint8_t *start = in->bytes + in->from, *end = memchr(start, '\n', in->to - in->from);
        if (end) {
            line->bytes = start, line->n = (size_t)(end - start);
            in->from += line->n + 1;
            return 1;
        }
        memmove(in->bytes, start, in->to - in->from);
        in->to -= in->from, in->from = 0;
        if (in->to == sizeof in->bytes)
            die("a line is too long", "");
        size_t got = fread(in->bytes + in->to, 1, sizeof in->bytes - in->to, in->file);
        if (got == 0)
            break;
        in->to += got;
    }
    if (ferror(in->file))
        die("cannot read", "");
    /* the last line may have no end */
    line->bytes = in->bytes, line->n = in->to;
    in->to = 0;
    return line->n > 0;
}

size_t append_file(const char *folder, const char *name, uint8_t *bytes, size_t size, size_t at)
{
    char path[4096];
    if (strlen(folder) + strlen(name) + 2 > sizeof path)
        die("a path is too long: ", name);
    memcpy(path, folder, strlen(folder));
    path[strlen(folder)] = '/';
    memcpy(path + strlen(folder) + 1, name, strlen(name) + 1);
    FILE *file = fopen(path, "rb");
    if (!file)
        die("cannot open ", path);
    at += fread(bytes + at, 1, size - at, file);
    if (ferror(file) || at == size)
        die("cannot read, or too long: ", path);
    fclose(file);
    return at;
}
