/* driver MODE ..   the proved library from C, for tests/
 *
 *   read, walk       hex digits on standard input, a line each: what is read, as the oracle's `read` prints it; how a walk ends
 *   encode           PDU lines on standard input: hex digits, as the oracle's `encode` prints them
 *   stream           hex digits, cut by spaces: each PDU and how the stream stands, as the oracle's `stream` prints them
 *   scripts          scripts of receiver calls (tests/model/FORMAT.md): each answer and the state behind it
 *   routes           questions whether a route is good (tests/model/origin.py): each answer and state, by both calls
 *   route-lists      questions about lists of routes (tests/model/route_lists.py): each answer, number and state list
 *   texts            hex digits, a line each, `-` for an empty text: how many bytes from the front are well-formed UTF-8, and whether that is all
 *   replay FOLDER    the stored answers of the Rust, answers.txt and encodings.txt: how many agree
 *   captures FOLDER  captured bytes through the stream, whole and in pieces of 1 to 64
 *   loads FOLDER [all]   captured bytes through the receiver, whole, in single bytes, and cut in two
 *   rooms, hosts     rooms of 1,024 records in four orders; calls over a lent record beside the others
 *
 * Exit status: 0; 1 where two ways that must come to the same did not (the first is named on standard error); 2 where it could not be run. */
#include <string.h>

#include "modes.h"

int main(int count, char **words)
{
    const char *mode = count > 1 ? words[1] : "", *folder = count > 2 ? words[2] : ".";
    if (!strcmp(mode, "read"))
        read_lines();
    else if (!strcmp(mode, "walk"))
        walk_lines();
    else if (!strcmp(mode, "encode"))
        encode_lines();
    else if (!strcmp(mode, "stream"))
        stream_lines();
    else if (!strcmp(mode, "scripts"))
        scripts();
    else if (!strcmp(mode, "replay"))
        replay(folder);
    else if (!strcmp(mode, "captures"))
        captures(folder);
    else if (!strcmp(mode, "loads"))
        loads(folder, count > 3 && !strcmp(words[3], "all"));
    else if (!strcmp(mode, "rooms"))
        rooms();
    else if (!strcmp(mode, "hosts"))
        hosts();
    else if (!strcmp(mode, "routes"))
        routes();
    else if (!strcmp(mode, "route-lists"))
        route_lists();
    else if (!strcmp(mode, "texts"))
        texts();
    else
        die("no such mode: ", mode);
    flush();
    return faults ? 1 : 0;
}
