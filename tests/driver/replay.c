/* The mode `replay`: the oracle's stored answers. A line of answers.txt is a slice in hex, `-` for none, and what the Rust reads in it; one of encodings.txt is a PDU and, behind ` => `,
 * what the Rust encodes it as. Ours must be the same text. Each file's lines are counted and those that agree, and the first that does not is named. */
#include <stdio.h>
#include <string.h>

#include "modes.h"

static uint8_t ours_space[LONGEST];

static int agrees(struct span line)
{
    struct text ours = { ours_space, sizeof ours_space, 0 };
    const uint8_t *sign = memchr(line.bytes, '>', line.n);
    struct span theirs, given;
    if (sign) { /* only a line of encodings.txt has one */
        if (sign - line.bytes < 2 || line.bytes + line.n - sign < 2)
            return 0;
        given.bytes = line.bytes, given.n = (size_t)(sign - line.bytes) - 2;
        theirs.bytes = sign + 2, theirs.n = (size_t)(line.bytes + line.n - theirs.bytes);
        put_line_encoding(&ours, given);
    } else {
        given = first_word(line), theirs = behind_word(line);
        if (is_text(given, "-"))
            given.n = 0;
        put_line_answer(&ours, given);
    }
    return is_same(written(&ours), theirs);
}

static void replay_file(const char *folder, const char *name)
{
    char path[4096];
    uint64_t lines = 0, agree = 0, first = 0;
    struct span line;
    if (strlen(folder) + strlen(name) + 2 > sizeof path)
        die("a path is too long: ", name);
    memcpy(path, folder, strlen(folder));
    path[strlen(folder)] = '/';
    memcpy(path + strlen(folder) + 1, name, strlen(name) + 1);
    struct lines *in = open_lines(path);
    while (next_line(in, &line)) {
        lines++;
        if (agrees(line))
            agree++;
        else if (!first)
            first = lines;
    }
    put_text(&out, name);
    put_field(&out, "\nlines=", lines);
    put_field(&out, "\nagree=", agree);
    if (first)
        put_field(&out, "\nfirst=", first);
    put_byte(&out, '\n');
}

void replay(const char *folder)
{
    replay_file(folder, "answers.txt");
    replay_file(folder, "encodings.txt");
}
