/* Moves a graph file from edition 1 to edition 2, or back.
 *
 *     move OLD MOVED
 *     move --back MOVED OLD
 *
 * OLD is a file of edition 1, MOVED one of edition 2: the first of the two is read, and the same
 * graph is written to the second. To build it:
 *
 *     cc -Iinclude examples/move.c crates/c_api/out/libc_api.a -o move
 *
 * A file moves back only if each of its labels fits a byte. The file that is written has to be a
 * new one: a file that is there already is never overwritten, and a run that fails writes none.
 *
 * `refused NUMBER at byte PLACE: TEXT` is a refusal of include/golfcedar.h, with the library's own
 * text; the first byte is byte 0. A file that is moved already is refused with 2 at byte 0. The
 * status is 0 if the file was moved, 1 if the library refused it, and 2 for anything else.
 */
#include <errno.h>
#include <inttypes.h>
#include <stdio.h>
#include <stdlib.h>
#include <string.h>

#include "golfcedar.h"

/* Some bytes more than a graph has. */
enum { READ = GOLFCEDAR_GRAPH_BYTES + 5 };

static void fail(const char *name, const char *why)
{
    fprintf(stderr, "move: %s: %s\n", name, why);
    exit(2);
}

/* Answers the length, at most READ. A longer file is no graph, and its fault stands before that. */
static size_t load(const char *name, uint8_t *bytes)
{
    FILE *stream = fopen(name, "rb");
    if (stream == NULL)
        fail(name, "cannot be read");
    size_t length = fread(bytes, 1, READ, stream);
    if (ferror(stream))
        fail(name, "cannot be read");
    fclose(stream);
    return length;
}

static int refused(const char *name, uint32_t number, uint64_t place)
{
    uint8_t text[GOLFCEDAR_REASON_BYTES];
    uint64_t length;
    golfcedar_reason(number, text, sizeof text, &length);
    fprintf(stderr, "move: %s: refused %" PRIu32 " at byte %" PRIu64 ": %.*s\n", name, number,
            place, (int)length, (const char *)text);
    return 1;
}

/* The x has it refused if there is such a file: so what is removed is only what was begun here. */
static void save(const char *name, const uint8_t *bytes, size_t length)
{
    FILE *stream = fopen(name, "wbx");
    if (stream == NULL)
        fail(name, errno == EEXIST ? "is there already: name a new file" : "cannot be written");
    size_t written = fwrite(bytes, 1, length, stream);
    if (fclose(stream) != 0 || written != length) {
        remove(name);
        fail(name, "cannot be written");
    }
}

int main(int count, char **arguments)
{
    static uint8_t graph[READ], moved[GOLFCEDAR_GRAPH_BYTES];
    int back = count > 1 && strcmp(arguments[1], "--back") == 0;
    if (count != 3 + back) {
        fprintf(stderr, "move needs: OLD MOVED, or --back MOVED OLD\n");
        return 2;
    }
    const char *from = arguments[1 + back], *to = arguments[2 + back];
    size_t length = load(from, graph);
    uint64_t value;
    uint32_t number = back ? golfcedar_to_edition_1(graph, length, moved, sizeof moved, &value)
                           : golfcedar_to_edition_2(graph, length, moved, sizeof moved, &value);
    if (number != 0)
        return refused(from, number, value);
    save(to, moved, value);
    return 0;
}
