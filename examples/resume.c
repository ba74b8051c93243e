/* A search that goes on from run to run, through a file.
 *
 *     resume [--connected] [--descend] [--substitute LABEL:LABEL]... OLD NEW CHECKPOINT BUDGET
 *            [MINIMUM]
 *
 * OLD and NEW are graph files of edition 2. Without a file CHECKPOINT the search starts, for
 * mappings of at least MINIMUM vertices (0 to 255; 0 if not given), else it goes on from there;
 * either way for BUDGET visits. The file is saved, and what the search says so far is printed. To
 * build it:
 *
 *     cc -Iinclude examples/resume.c crates/c_api/out/libc_api.a -o resume
 *
 * With `--connected` only mappings are looked for whose old vertices hang together by edges among
 * themselves. Either every run gives it, or none does.
 *
 * With `--descend` the search is a descent, from the largest minimum that anything can reach down to
 * MINIMUM. It finds the same, for graphs that resemble each other mostly in far fewer visits. What is
 * printed then is the visits of this run instead of the steps of the search, and the descent's
 * ceiling. Either every run gives it, or none does.
 *
 * `--substitute 7:9` lets old vertices of label 7 be mapped to new ones of label 9 too; labels are
 * 1 to 65535, and at most 256 pairs may be given. Each run has to give the same ones, in the same
 * order.
 *
 * BUDGET, MINIMUM and each LABEL are decimal numbers without sign or leading zero. A MINIMUM is
 * refused if the search in the file started with another one, and a file is refused if it was saved
 * for other graphs or substitutes, or for the other search, or as a descent if this is none: a
 * checkpoint alone does not tell of which it is, and a finished one would give the answer for those.
 * `refused NUMBER (VALUE): TEXT` is a refusal of include/golfcedar.h, with the library's own text,
 * after the file that it is about. A run that is refused leaves the file CHECKPOINT as it was.
 *
 * The file has four parts: the bytes of the old graph, of the new graph, of the substitutes and of
 * the checkpoint, each after its length, which takes two bytes, the lower first. The first three
 * stand there whole, so that nothing rests on a digest; they count as the same if their bytes are.
 * With `--connected` there is a part more before the checkpoint, which is the byte 1, and with
 * `--descend` one after that, which is the byte 2 and MINIMUM: no checkpoint is either, so a file of
 * four parts is one without both. examples/resume.rs reads and writes the same file.
 *
 * A file from before edition 2 has graphs of edition 1 and substitutes of one byte a label. It is
 * read as if it were saved for the moved graphs, and for the same labels in two bytes each: so it
 * goes on with OLD and NEW as golfcedar_to_edition_2 gives them. One of three parts, from before
 * there were substitutes, is read as one whose list is empty: that is what it was saved for.
 */
#include <errno.h>
#include <inttypes.h>
#include <stdio.h>
#include <stdlib.h>
#include <string.h>

#include "golfcedar.h"

#define SAVED_BYTES                                                                                \
    (2 + GOLFCEDAR_GRAPH_BYTES + 2 + GOLFCEDAR_GRAPH_BYTES + 2 + GOLFCEDAR_SUBSTITUTES_BYTES +     \
     2 + 1 + 2 + 2 + 2 + GOLFCEDAR_CHECKPOINT_BYTES)

/* Room for every file that can be accepted, and a byte more by which a longer one is refused. */
struct bytes {
    uint8_t at[SAVED_BYTES + 1];
    size_t length;
};

struct search {
    struct bytes old, new, substitutes, checkpoint;
    uint32_t connected;
    int descending;
    uint8_t floor; /* of a descent */
    const char *file;
    /* What the last call answered: the visits if it was a descent's. */
    uint64_t ceiling, visits;
};

struct reading {
    uint8_t mapping[64];
    uint64_t state, steps, size, ceiling;
};

static _Noreturn void fail(const char *what, const char *name, const char *why)
{
    fprintf(stderr, "%s %s: %s\n", what, name, why);
    exit(EXIT_FAILURE);
}

static void accept_or_exit(const char *what, const char *name, uint32_t number, uint64_t value)
{
    uint8_t text[GOLFCEDAR_REASON_BYTES];
    uint64_t length;
    if (number == 0)
        return;
    golfcedar_reason(number, text, sizeof text, &length);
    fprintf(stderr, "%s %s: refused %" PRIu32 " (%" PRIu64 "): %.*s\n", what, name, number, value,
            (int)length, (const char *)text);
    exit(EXIT_FAILURE);
}

/* A number is the word that it is printed as: so nothing else is taken for one. */
static uint64_t number_or_exit(const char *what, const char *word, uint64_t largest)
{
    char printed[21];
    uint64_t number = strtoull(word, NULL, 10);
    snprintf(printed, sizeof printed, "%" PRIu64, number);
    if (strcmp(printed, word) != 0 || number > largest) {
        fprintf(stderr, "%s '%s': not a number from 0 to %" PRIu64 " in plain form\n", what, word,
                largest);
        exit(EXIT_FAILURE);
    }
    return number;
}

static void put_label(struct bytes *substitutes, uint64_t label)
{
    substitutes->at[substitutes->length++] = label % 256;
    substitutes->at[substitutes->length++] = label / 256;
}

/* Two labels with a colon between, in the form in which they are printed. */
static void add_substitute_or_exit(struct bytes *substitutes, const char *word)
{
    char printed[2 * 20 + 2];
    char *end;
    uint64_t from = strtoull(word, &end, 10);
    uint64_t to = *end == ':' ? strtoull(end + 1, NULL, 10) : 0;
    snprintf(printed, sizeof printed, "%" PRIu64 ":%" PRIu64, from, to);
    if (strcmp(printed, word) != 0 || from < 1 || from > UINT16_MAX || to < 1 ||
        to > UINT16_MAX) {
        fprintf(stderr,
                "substitute '%s': not two numbers from 1 to 65535 in plain form, as in 7:9\n", word);
        exit(EXIT_FAILURE);
    }
    if (substitutes->length == GOLFCEDAR_SUBSTITUTES_BYTES) {
        fprintf(stderr, "substitute '%s': at most %d may be given\n", word,
                GOLFCEDAR_SUBSTITUTES_BYTES / 4);
        exit(EXIT_FAILURE);
    }
    put_label(substitutes, from);
    put_label(substitutes, to);
}

/* Answers 0 if there is no such file. */
static int load(const char *what, const char *name, struct bytes *bytes)
{
    FILE *stream = fopen(name, "rb");
    if (stream == NULL && errno == ENOENT)
        return 0;
    if (stream == NULL)
        fail(what, name, "cannot be read");
    bytes->length = fread(bytes->at, 1, sizeof bytes->at, stream);
    if (ferror(stream))
        fail(what, name, "cannot be read");
    fclose(stream);
    return 1;
}

static void load_graph(const char *what, const char *name, struct bytes *graph)
{
    uint64_t value;
    if (!load(what, name, graph))
        fail(what, name, "cannot be read");
    uint32_t number = golfcedar_check_graph(graph->at, graph->length, &value);
    accept_or_exit(what, name, number, value);
}

/* The part of a saved file that begins at *place, which moves on. Answers 0 if it is cut off. */
static int take_part(const struct bytes *saved, size_t *place, struct bytes *part)
{
    const uint8_t *from = saved->at + *place;
    size_t left = saved->length - *place;
    if (left < 2)
        return 0;
    part->length = from[0] + 256u * from[1];
    if (left - 2 < part->length)
        return 0;
    memcpy(part->at, from + 2, part->length);
    *place += 2 + part->length;
    return 1;
}

static void put_part(struct bytes *saved, const struct bytes *part)
{
    uint8_t *to = saved->at + saved->length;
    to[0] = part->length % 256;
    to[1] = part->length / 256;
    memcpy(to + 2, part->at, part->length);
    saved->length += 2 + part->length;
}

/* The part of a file of the connected search that stands before the checkpoint. */
static const struct bytes connected_part = {{1}, 1};

static int same(const struct bytes *one, const struct bytes *other)
{
    return one->length == other->length && memcmp(one->at, other->at, one->length) == 0;
}

/* Answers 0 if it is no graph of edition 1. */
static int move_up(struct bytes *graph)
{
    static struct bytes moved;
    uint64_t value;
    uint32_t number = golfcedar_to_edition_2(graph->at, graph->length, moved.at, sizeof moved.at,
                                             &value);
    if (number != 0)
        return 0;
    moved.length = value;
    *graph = moved;
    return 1;
}

/* Answers 0 if there are too many. */
static int widen(struct bytes *substitutes)
{
    static struct bytes narrow;
    narrow = *substitutes;
    if (narrow.length > GOLFCEDAR_SUBSTITUTES_BYTES / 2)
        return 0;
    substitutes->length = 0;
    for (size_t label = 0; label < narrow.length; label++)
        put_label(substitutes, narrow.at[label]);
    return 1;
}

/* Answers 0 if the parts are cut off, if more follows, or if they are from before edition 2 and not
 * sound. They are from then if the graphs are. No list of that time ends as a checkpoint does, with
 * a 0: so a file that is cut off after the list is not taken for one of three parts. */
static int take_parts(const struct bytes *saved, struct search *of)
{
    struct bytes *substitutes = &of->substitutes, *checkpoint = &of->checkpoint;
    size_t place = 0;
    of->connected = 0, of->descending = 0;
    if (!take_part(saved, &place, &of->old) || !take_part(saved, &place, &of->new) ||
        !take_part(saved, &place, substitutes))
        return 0;
    int earlier = of->old.length == 0 || of->old.at[0] != 4;
    if (earlier && place == saved->length && substitutes->length > 0 &&
        substitutes->at[substitutes->length - 1] == 0) {
        *checkpoint = *substitutes;
        substitutes->length = 0;
    } else if (!take_part(saved, &place, checkpoint)) {
        return 0;
    }
    if (!earlier && same(checkpoint, &connected_part)) {
        of->connected = 1;
        if (!take_part(saved, &place, checkpoint))
            return 0;
    }
    if (!earlier && checkpoint->length == 2 && checkpoint->at[0] == 2) {
        of->descending = 1;
        of->floor = checkpoint->at[1];
        if (!take_part(saved, &place, checkpoint))
            return 0;
    }
    if (place != saved->length)
        return 0;
    return !earlier || (move_up(&of->old) && move_up(&of->new) && widen(substitutes));
}

/* Answers 0 if there is no such file. */
static int load_checkpoint(struct search *search)
{
    static struct bytes saved;
    static struct search of;
    if (!load("checkpoint", search->file, &saved))
        return 0;
    if (!take_parts(&saved, &of))
        fail("checkpoint", search->file, "damaged, or not a file of this program");
    if (!same(&of.old, &search->old))
        fail("checkpoint", search->file, "saved for another old graph: name another file");
    if (!same(&of.new, &search->new))
        fail("checkpoint", search->file, "saved for another new graph: name another file");
    if (!same(&of.substitutes, &search->substitutes))
        fail("checkpoint", search->file, "saved for other substitutes: name another file");
    if (of.connected != search->connected)
        fail("checkpoint", search->file,
             of.connected ? "saved with --connected: name another file"
                          : "saved without --connected: name another file");
    if (of.descending != search->descending)
        fail("checkpoint", search->file,
             of.descending ? "saved with --descend: name another file"
                           : "saved without --descend: name another file");
    search->floor = of.floor;
    search->checkpoint = of.checkpoint;
    return 1;
}

/* Through a second file, so that a run that is cut short leaves the old one. */
static void save_checkpoint(const struct search *search)
{
    static struct bytes saved;
    saved.length = 0;
    put_part(&saved, &search->old);
    put_part(&saved, &search->new);
    put_part(&saved, &search->substitutes);
    if (search->connected)
        put_part(&saved, &connected_part);
    if (search->descending) {
        const struct bytes descent_part = {{2, search->floor}, 2};
        put_part(&saved, &descent_part);
    }
    put_part(&saved, &search->checkpoint);
    char second[4096];
    int length = snprintf(second, sizeof second, "%s.saving", search->file);
    if (length < 0 || (size_t)length >= sizeof second)
        fail("checkpoint", search->file, "too long a name");
    FILE *stream = fopen(second, "wb");
    if (stream == NULL)
        fail("checkpoint", search->file, "cannot be saved");
    size_t written = fwrite(saved.at, 1, saved.length, stream);
    if (fclose(stream) != 0 || written != saved.length || rename(second, search->file) != 0)
        fail("checkpoint", search->file, "cannot be saved");
}

static void start(struct search *search, uint8_t minimum)
{
    const struct bytes *old = &search->old, *new = &search->new;
    const struct bytes *substitutes = &search->substitutes;
    struct bytes *checkpoint = &search->checkpoint;
    uint64_t value;
    uint32_t number = (search->descending ? golfcedar_descend_start : golfcedar_start)(
        old->at, old->length, new->at, new->length, substitutes->at, substitutes->length,
        search->connected, minimum, checkpoint->at, sizeof checkpoint->at, &value);
    accept_or_exit("checkpoint", search->file, number, value);
    checkpoint->length = value;
    search->floor = minimum;
}

static void resume(struct search *search, uint64_t budget)
{
    static uint64_t workspace[GOLFCEDAR_WORKSPACE_WORDS];
    static struct bytes next;
    const struct bytes *old = &search->old, *new = &search->new;
    const struct bytes *substitutes = &search->substitutes, *checkpoint = &search->checkpoint;
    uint64_t value;
    uint32_t number;
    if (search->descending)
        number = golfcedar_descend_resume(old->at, old->length, new->at, new->length,
                                          substitutes->at, substitutes->length, search->connected,
                                          search->floor, checkpoint->at, checkpoint->length, budget,
                                          workspace, GOLFCEDAR_WORKSPACE_WORDS, next.at,
                                          sizeof next.at, &value, &search->ceiling,
                                          &search->visits);
    else
        number = golfcedar_resume(old->at, old->length, new->at, new->length, substitutes->at,
                                  substitutes->length, search->connected, checkpoint->at,
                                  checkpoint->length, budget, workspace, GOLFCEDAR_WORKSPACE_WORDS,
                                  next.at, sizeof next.at, &value, &search->ceiling);
    accept_or_exit("checkpoint", search->file, number, value);
    next.length = value;
    search->checkpoint = next;
}

static struct reading read_out(const struct search *search)
{
    const struct bytes *old = &search->old, *new = &search->new;
    const struct bytes *substitutes = &search->substitutes, *checkpoint = &search->checkpoint;
    struct reading reading;
    uint32_t number = golfcedar_read_out(old->at, old->length, new->at, new->length,
                                         substitutes->at, substitutes->length,
                                         search->connected, checkpoint->at, checkpoint->length,
                                         reading.mapping, sizeof reading.mapping, &reading.state,
                                         &reading.steps, &reading.size, &reading.ceiling);
    accept_or_exit("checkpoint", search->file, number, reading.state);
    return reading;
}

/* The second byte of checkpoint bytes that are accepted is the search's minimum. */
static void same_minimum_or_exit(const struct search *search, uint64_t minimum)
{
    read_out(search);
    uint8_t started = search->descending ? search->floor : search->checkpoint.at[1];
    if (started != minimum) {
        fprintf(stderr, "checkpoint %s: started with minimum %d, not %" PRIu64 "\n", search->file,
                started, minimum);
        exit(EXIT_FAILURE);
    }
}

static void print_mapping(const uint8_t *mapping, uint64_t order)
{
    for (uint64_t vertex = 0; vertex < order; vertex++) {
        if (mapping[vertex] == GOLFCEDAR_UNMAPPED)
            printf("%" PRIu64 " is left out\n", vertex);
        else
            printf("%" PRIu64 " maps to %d\n", vertex, mapping[vertex]);
    }
}

static void print(const struct search *search)
{
    struct reading reading = read_out(search);
    int finished = reading.state >= 2, held = reading.state % 2 == 1;
    printf("state %s\n", finished ? "finished" : "unfinished");
    if (search->descending)
        printf("visits %" PRIu64 "\n", search->visits);
    else
        printf("steps %" PRIu64 "\n", reading.steps);
    if (held)
        printf("size %" PRIu64 "\n", reading.size);
    else
        printf("size none\n");
    printf("ceiling %" PRIu64 "\n", search->ceiling);
    if (held) {
        uint64_t order;
        golfcedar_check_graph(search->old.at, search->old.length, &order);
        print_mapping(reading.mapping, order);
    }
    if (fflush(stdout) != 0 || ferror(stdout))
        fail("standard", "output", "cannot be written");
}

int main(int count, char **arguments)
{
    static struct search search;
    for (;;) {
        if (count > 1 && strcmp(arguments[1], "--connected") == 0) {
            search.connected = 1;
            count -= 1, arguments += 1;
        } else if (count > 1 && strcmp(arguments[1], "--descend") == 0) {
            search.descending = 1;
            count -= 1, arguments += 1;
        } else if (count > 2 && strcmp(arguments[1], "--substitute") == 0) {
            add_substitute_or_exit(&search.substitutes, arguments[2]);
            count -= 2, arguments += 2;
        } else {
            break;
        }
    }
    if (count != 5 && count != 6)
        fail("resume", "needs",
             "[--connected] [--descend] [--substitute LABEL:LABEL]... "
             "OLD NEW CHECKPOINT BUDGET [MINIMUM]");
    uint64_t budget = number_or_exit("budget", arguments[4], UINT64_MAX);
    uint64_t minimum = count == 6 ? number_or_exit("minimum", arguments[5], UINT8_MAX) : 0;
    load_graph("old graph", arguments[1], &search.old);
    load_graph("new graph", arguments[2], &search.new);
    search.file = arguments[3];
    if (!load_checkpoint(&search))
        start(&search, minimum);
    if (count == 6)
        same_minimum_or_exit(&search, minimum);
    /* A file that cannot be saved is better known before a long search than after it. */
    save_checkpoint(&search);
    resume(&search, budget);
    save_checkpoint(&search);
    print(&search);
    return EXIT_SUCCESS;
}
