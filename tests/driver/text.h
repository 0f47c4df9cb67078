/* Lines in, text out: buffers, hex digits, decimal numbers and files. A buffer that is too small ends the program with status 2. */
#ifndef DRIVER_TEXT_H
#define DRIVER_TEXT_H

#include "hingemoss.h"

struct text {
    uint8_t *bytes;
    size_t size, n;
};

/* Standard output; `flush` writes it. */
extern struct text out;
void flush(void);

void put_byte(struct text *t, uint8_t byte);
void put_bytes(struct text *t, const uint8_t *bytes, size_t n);
void put_text(struct text *t, const char *text);
void put_number(struct text *t, uint64_t n);
void put_field(struct text *t, const char *name, uint64_t n);
void put_hex(struct text *t, const uint8_t *bytes, size_t n);
void put_hex32(struct text *t, uint32_t n);

/* A run of bytes: a line, a word, a file. */
struct span {
    const uint8_t *bytes;
    size_t n;
};
int is_text(struct span s, const char *text);
int is_same(struct span a, struct span b);
struct span written(const struct text *t);
struct span first_word(struct span s);
struct span behind_word(struct span s);

/* A decimal number of digits alone, at most `most`; false where it is none. */
int number_in(struct span s, uint64_t most, uint64_t *n);

/* Lower-case hex digits as bytes: how many, or -1 where they are none or do not fit. */
long decode(struct span digits, uint8_t *bytes, size_t size);

/* The next line of standard input or of a file, without its end; false where there is none. */
struct lines;
struct lines *open_lines(const char *path);
int next_line(struct lines *in, struct span *line);

/* All of a file, behind what is there: where it then ends. */
size_t append_file(const char *folder, const char *name, uint8_t *bytes, size_t size, size_t at);

_Noreturn void die(const char *why, const char *what);

/* Counts what does not hold and names the first on standard error; the program's exit status is then 1. */
extern unsigned long faults;
void fault(const char *what);

#endif
