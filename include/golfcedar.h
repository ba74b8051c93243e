/* Golfcedar: the largest common subgraph of two labelled graphs, or the largest connected one, by a proved search that can be stopped and resumed.
 *
 * Link with libgolfcedar (`make library`, `make install`), or with libc_api.a (`rt lib` in crates/c_api), which has the same functions. Every function here is
 * proved against a definition: docs/PROMISES.md, "The library to link", names each.
 *
 * Graphs, substitutes, mappings and checkpoints are plain bytes; README.md has their forms. The caller owns every buffer: nothing is kept after
 * a call returns, nothing is allocated. A pointer with a length of 0 may be any non-null pointer. What is written, buffers and number
 * results alike, must not overlap anything else that is lent to the same call. A call uses at most 320 kibibytes of stack (tested, not proved).
 * Several threads may call at the same time, if what one call writes is lent to no other call meanwhile; what calls only read may be shared.
 *
 * A graph's bytes are of edition 2. They begin with 4 2, and then have commands: `3 low high` is the next vertex, with a label from 1 to 65,535, the lower byte
 * first; `2 a b label` an edge of two vertices already given, or of one with itself, with a label from 1 to 255; `0` the end. Edition 1 is the earlier form: it
 * has no beginning of its own, and a vertex is `1 label`, with a label from 1 to 255. Only `golfcedar_to_edition_2` reads it, and only `golfcedar_to_edition_1`
 * writes it.
 *
 * Every function but `golfcedar_version` returns 0 where it accepts, else a refusal's number. Refusals are tested in the order in which the function names
 * them, graph bytes command by command and a mapping row by row, and the first condition met gives the number. The number results (`value`, `earlier`,
 * `about`, `steps`, `size`, `ceiling`, `visits`) are the rest of the answer, and every call writes all of them: accepted, what the function says; refused,
 * `value` as below, `earlier` with 20 and 22, and `about`; and 0 where the answer says nothing. A refusal changes none of the buffers that were lent
 * (`checkpoint`, `workspace`, `next`, `mapping`, `out`, `text`).
 *
 *    number  refused because                                                             value
 *    27      a graph's bytes begin with anything but 4 2; empty, or 4 alone, is 1        place, always 0
 *    1       of a graph's bytes: 4 2 or operands are cut off, or the end is missing      place
 *    2       unknown command: in edition 2 also 1, a later 4; in edition 1 also 3, 4     place
 *    3, 4    a vertex with label 0; a 65th vertex                                        place
 *    28      a vertex with a label above 255, for `golfcedar_to_edition_1`               place
 *    5, 7, 8 an edge of a vertex not yet given; with label 0; given already              place
 *    9       bytes after the end                                                         place
 *    13      what is to be written does not fit into its buffer                          0
 *    14      the checkpoint is not in shape for these graphs, this list and this search  0
 *    15      fewer than 4,160 workspace words                                            0
 *    16      unfinished, and steps + budget above 2^64 - 1                               0
 *    17      checkpoint bytes not in the form                                            place
 *    18      a mapping whose length is not the number of old vertices                    0
 *    19, 21  of a mapping's row: no new vertex; labels do not agree                      row
 *    22      of the row with itself: edges differ                                        row (`earlier` has the same row)
 *    20, 22  against an earlier row: the same new vertex; edges differ                   row (`earlier` has the earlier one)
 *    23      substitutes whose length four does not divide, or above 1,024 bytes         0
 *    24      a label 0 among the substitutes: both bytes are 0                           0
 *    25      more than eight old vertices, for `golfcedar_clique`                        0
 *    26      a number of vertices above 64, for `golfcedar_step_limit`                   0
 *
 * A place is an offset: that of the command at fault, of the first byte that cannot stand there, or the length where the end is missing.
 * 6 is no refusal's number, and 10, 11 and 12, of lent tables, are never given. Where two graphs are given, the old one is read first, and
 * `golfcedar_check_problem` tells which of the two 27 or a number from 1 to 9 is about. `golfcedar_reason` has a text for each number.
 *
 * `substitutes` says which vertex labels agree beside equal ones, which always do: pairs of labels of two bytes each, the lower first: the label of an old
 * vertex, then the label of a new vertex that may stand in for it; at most 256 pairs. A pair holds one way only, and pairs do not chain: by 7 0 8 0 8 0 9 0 an
 * old 7 does not agree with a new 9. A list of length 0 says that only equal labels agree. Edges never read it: their labels must be equal. Calls that resume
 * one another take the same bytes: a checkpoint made under another list may be refused with 14, or be accepted, and then the ceiling is not promised.
 *
 * `connected` says which search it is: 0 the first, which looks for any common subgraph; any other value the second, which looks for connected ones. A common
 * subgraph is connected if its mapped old vertices hang together by edges among themselves, of any label: from each of them a way along such edges leads to each
 * other one. A way through a vertex that is left out does not count, and an edge of a vertex with itself joins nothing. With one mapped vertex, or none, it is
 * connected. The second search makes its visits in the same tree by the same rules, but does not hold a mapping that is not connected: so what it finds may be
 * smaller than what the first one finds, and it may need more steps. A checkpoint that holds a mapping that is not connected is not in shape for the second
 * search: 14, from `golfcedar_resume`, `golfcedar_descend_resume` and `golfcedar_read_out`; a search that has not begun holds nothing, so `golfcedar_start`
 * writes the same bytes for both searches, and so does `golfcedar_descend_start`.
 * Calls that resume one another are of the same search, all with 0 or all with other values; checkpoint bytes do not tell of which. A checkpoint that the other
 * search left counts as one that no call left: it may be refused with 14, or be accepted and walked, and then neither the ceiling is promised nor that a finished
 * search holds the largest; what is held is still a common subgraph, in the second search a connected one.
 */
#ifndef GOLFCEDAR_H
#define GOLFCEDAR_H

#include <stddef.h>
#include <stdint.h>

#ifdef __cplusplus
extern "C" {
#endif

/* The version of this header. The major number rises where a program that was compiled before would be wrong with the new library, and is the number of its
 * soname; the minor one where functions are added; the patch where neither is so. */
#define GOLFCEDAR_VERSION_MAJOR 1
#define GOLFCEDAR_VERSION_MINOR 0
#define GOLFCEDAR_VERSION_PATCH 0
#define GOLFCEDAR_VERSION (65536 * GOLFCEDAR_VERSION_MAJOR + 256 * GOLFCEDAR_VERSION_MINOR + GOLFCEDAR_VERSION_PATCH)

/* No graph has more bytes than this. */
#define GOLFCEDAR_GRAPH_BYTES 8515
/* No graph of edition 1 has more bytes than this. */
#define GOLFCEDAR_EDITION_1_BYTES 8449
/* No checkpoint has more bytes than this. */
#define GOLFCEDAR_CHECKPOINT_BYTES 270
/* A search call needs this many words of 64 bits. */
#define GOLFCEDAR_WORKSPACE_WORDS 4160
/* Substitutes have at most this many bytes, four for each pair. */
#define GOLFCEDAR_SUBSTITUTES_BYTES 1024
/* `golfcedar_clique` takes at most this many old vertices. */
#define GOLFCEDAR_CLIQUE_VERTICES 8
/* No refusal's text has more bytes than this. */
#define GOLFCEDAR_REASON_BYTES 80
/* In a mapping: an old vertex that is left out. */
#define GOLFCEDAR_UNMAPPED 255
/* From `golfcedar_step_limit`: so many steps or more. */
#define GOLFCEDAR_STEP_LIMIT_CAP UINT64_MAX

/* The version of the library: GOLFCEDAR_VERSION of the header that belongs to it. It refuses nothing. */
uint32_t golfcedar_version(void);

/* The text of a refusal's number, for people: printable ASCII, with no end mark (print it with "%.*s"). Accepted: it stands in the first *value bytes of `text`,
 * and later bytes are untouched; a number that is no refusal's has the empty text. Refused: 13 if it does not fit, never with GOLFCEDAR_REASON_BYTES. */
uint32_t golfcedar_reason(uint32_t number, uint8_t *text, size_t text_len, uint64_t *value);

/* What every call on two graphs and substitutes tests before all else, and which of the three is at fault. Accepted: *value and *about are 0. Refused: 27 and
 * 1 to 9 of the old graph, *about is 1; then of the new graph, *about is 2; then 23 and 24, *about is 3. A call that is refused for one of them is refused with the
 * same number and value. */
uint32_t golfcedar_check_problem(const uint8_t *old_graph, size_t old_len, const uint8_t *new_graph, size_t new_len,
                                 const uint8_t *substitutes, size_t substitutes_len, uint64_t *value, uint64_t *about);

/* Is this a graph? Accepted: *value is its number of vertices. Refused: 27; 1 to 9. */
uint32_t golfcedar_check_graph(const uint8_t *graph, size_t graph_len, uint64_t *value);

/* Is this mapping, one byte for each old vertex, a common subgraph? Accepted: *value is its size, *earlier is 0.
 * Refused: 27; 1 to 9; 23; 24; 18; then row by row 19, 21, 22 of the row with itself (both vertices need the same edge with themselves, or none), and against
 * each earlier row, rising, 20, 22. So it also tells why a vertex cannot stay: map it to the new vertex in question, and the number and the rows say what is
 * against it. */
uint32_t golfcedar_check_mapping(const uint8_t *old_graph, size_t old_len, const uint8_t *new_graph, size_t new_len,
                                 const uint8_t *substitutes, size_t substitutes_len, const uint8_t *mapping, size_t mapping_len,
                                 uint64_t *value, uint64_t *earlier);

/* A search that has not begun: only mappings of at least `minimum` vertices will be found, and only connected ones if `connected` is not 0. Accepted: its
 * checkpoint stands in the first *value bytes of `checkpoint`, and later bytes are untouched. Refused: 27; 1 to 9; 23; 24; 13 if it does not fit, never with 270
 * bytes. */
uint32_t golfcedar_start(const uint8_t *old_graph, size_t old_len, const uint8_t *new_graph, size_t new_len,
                         const uint8_t *substitutes, size_t substitutes_len, uint32_t connected, uint8_t minimum, uint8_t *checkpoint,
                         size_t checkpoint_len, uint64_t *value);

/* Goes on with a search for `budget` visits, fewer only if it finishes. `checkpoint` has exactly the bytes that an earlier call wrote.
 * Accepted: the next checkpoint stands in the first *value bytes of `next`, later bytes are untouched; every common subgraph, in the second search every
 * connected one, has fewer than *ceiling vertices (if the search began with `golfcedar_start`, and all its calls took the same two graphs and substitutes and
 * were of the same search); the first 4,160 words of `workspace` are 0, later words are untouched. Refused: 27; 1 to 9; 23; 24; 17; 14; 15; 16; 13 if the next
 * checkpoint does not fit, never with 270 bytes. How long it is shows only when the visits are made, so lend 270: after 13 the search stands where it stood, and
 * the visits have to be made again. */
uint32_t golfcedar_resume(const uint8_t *old_graph, size_t old_len, const uint8_t *new_graph, size_t new_len,
                          const uint8_t *substitutes, size_t substitutes_len, uint32_t connected, const uint8_t *checkpoint,
                          size_t checkpoint_len, uint64_t budget, uint64_t *workspace, size_t workspace_words, uint8_t *next,
                          size_t next_len, uint64_t *value, uint64_t *ceiling);

/* What a checkpoint says. Accepted: *value is its state (0 unfinished, 1 unfinished with a mapping held, 2 finished, 3 finished with one), *steps the
 * visits made, *ceiling as `golfcedar_resume` gives it. If a mapping is held, *size is its size, and one byte for each old vertex is stored to `mapping`;
 * else *size is 0 and `mapping` is untouched. Refused: 27; 1 to 9; 23; 24; 17; 14; 13 if a mapping is held and has more bytes than `mapping`, never with 64
 * bytes. */
uint32_t golfcedar_read_out(const uint8_t *old_graph, size_t old_len, const uint8_t *new_graph, size_t new_len,
                            const uint8_t *substitutes, size_t substitutes_len, uint32_t connected, const uint8_t *checkpoint,
                            size_t checkpoint_len, uint8_t *mapping, size_t mapping_len, uint64_t *value, uint64_t *steps, uint64_t *size,
                            uint64_t *ceiling);

/* A descent that has not begun. It finds what the search with minimum `floor` finds, by searches from above: the first has the largest minimum that anything
 * can reach, and where one finishes with nothing held, the next begins with a minimum lower by one, down to `floor`. A search with a high minimum leaves most
 * nodes at once: so take the descent nearly always where the two graphs resemble each other, as an old panel and a new one do. Where they do not, it may take
 * more visits than the search alone (README.md has figures).
 * The first minimum is the least of three numbers: of the old vertices, of the new ones, and of the old vertices that may lie on at least one new vertex, by
 * labels that agree and equal edges with itself; but it is not below `floor`. `connected` does not change it.
 * Accepted: the checkpoint of the first search stands in the first *value bytes of `checkpoint`, and later bytes are untouched. Refused: 27; 1 to 9; 23; 24; 13
 * if it does not fit, never with 270 bytes. */
uint32_t golfcedar_descend_start(const uint8_t *old_graph, size_t old_len, const uint8_t *new_graph, size_t new_len,
                                 const uint8_t *substitutes, size_t substitutes_len, uint32_t connected, uint8_t floor,
                                 uint8_t *checkpoint, size_t checkpoint_len, uint64_t *value);

/* Goes on with a descent for `budget` visits, fewer only if it is done. `checkpoint` has exactly the bytes that an earlier call wrote: it is that of the search
 * which the descent is in, with this search's minimum and its own steps, from 0 again in each search. To begin the next search costs no visit, so a call with
 * budget 0 makes none and may still do so.
 * Accepted: the next checkpoint stands in the first *value bytes of `next`, later bytes are untouched; *visits are those that this call made, in all its
 * searches; the first 4,160 words of `workspace` are 0, later words are untouched. The descent is done when the state that `golfcedar_read_out` tells of `next`
 * is 2 or 3, and then stays as it is, whatever the budget.
 * If the descent began with `golfcedar_descend_start`, and all its calls took the same two graphs, substitutes and floor and were of the same search: every
 * common subgraph, in the second search every connected one, has fewer than *ceiling vertices, and *ceiling never rises from call to call. It may be lower than
 * the ceiling of `golfcedar_read_out`, which is the search's own at the checkpoint's minimum. A mapping, as soon as one is held, is that which a finished
 * search with minimum `floor` holds. Done, the descent holds it, and *ceiling is its size + 1; or none, if that search holds none, and *ceiling is `floor`.
 * Refused: what `golfcedar_resume` refuses with this checkpoint and budget, in the same order: 27; 1 to 9; 23; 24; 17; 14; 15; 16, of the steps in
 * `checkpoint`; 13 if the next checkpoint does not fit, never with 270 bytes.
 * A checkpoint that `golfcedar_start` or `golfcedar_resume` wrote is walked by the same rule: only where it is finished, holds nothing and has a minimum above
 * `floor` does the next search begin; one with a lower minimum is walked to its end as by `golfcedar_resume`. Before it is done its ceiling may be too low.
 * Each search takes at most as many visits as `golfcedar_step_limit` tells, and a descent at most that number for each minimum from the first down to `floor`. */
uint32_t golfcedar_descend_resume(const uint8_t *old_graph, size_t old_len, const uint8_t *new_graph, size_t new_len,
                                  const uint8_t *substitutes, size_t substitutes_len, uint32_t connected, uint8_t floor,
                                  const uint8_t *checkpoint, size_t checkpoint_len, uint64_t budget, uint64_t *workspace,
                                  size_t workspace_words, uint8_t *next, size_t next_len, uint64_t *value, uint64_t *ceiling,
                                  uint64_t *visits);

/* The whole first search in one call, for an old graph of at most eight vertices: by clique branching, which holds the mapping that a finished first search with
 * this `minimum` holds, connected or not. Accepted: *value is 1 if a mapping is held; then *size is its size, one byte for each old vertex is stored to
 * `mapping`, and later bytes are untouched. Else *value and *size are 0, `mapping` is untouched, and no common subgraph has `minimum` vertices. Refused: 27; 1
 * to 9; 23; 24; 25; 13 if a mapping is held and has more bytes than `mapping`, never with 8 bytes.
 * It has no bound and no budget: it goes through every common subgraph, and returns when it is through. That takes moments where few new vertices agree with
 * each old one, and does not end in practice where 64 do (README.md has figures): `golfcedar_resume` can be stopped. */
uint32_t golfcedar_clique(const uint8_t *old_graph, size_t old_len, const uint8_t *new_graph, size_t new_len,
                          const uint8_t *substitutes, size_t substitutes_len, uint8_t minimum, uint8_t *mapping, size_t mapping_len,
                          uint64_t *value, uint64_t *size);

/* How many visits a search, the first or the second, can take at most if the new graph has `new_order` vertices and the old one `old_order`, whatever their
 * labels and edges, the substitutes and the minimum. The new graph's number comes first here, and the two are not exchangeable: 3 and 2 give 18, 2 and 3 give 24.
 * Accepted: *value is V(new_order, old_order), where V(m, 0) = 1 and V(m, n) = 1 + m * V(m - 1, n - 1) + V(m, n - 1), without the middle term where m is 0;
 * or GOLFCEDAR_STEP_LIMIT_CAP, 2^64 - 1, which means that many or more. Refused: 26.
 * Below the cap, a search that began with `golfcedar_start` is finished once the budgets of its accepted `golfcedar_resume` calls add up to *value. It is a
 * limit, and mostly far above the steps that a search takes (README.md has figures). */
uint32_t golfcedar_step_limit(uint64_t new_order, uint64_t old_order, uint64_t *value);

/* Moves a graph from edition 1 to edition 2: reads `graph`, bytes of edition 1, and writes the same graph in edition 2, all its vertices, then its edges with
 * a <= b by rising a, then rising b, then the end. Accepted: it stands in the first *value bytes of `out`, and later bytes are untouched. Refused: 1 to 9;
 * 13 if it does not fit, never with GOLFCEDAR_GRAPH_BYTES. Bytes of edition 2 are refused with 2, place 0. */
uint32_t golfcedar_to_edition_2(const uint8_t *graph, size_t graph_len, uint8_t *out, size_t out_len, uint64_t *value);

/* Moves a graph back from edition 2 to edition 1, if each label fits a byte, and writes it in the same order. Accepted: it stands in the first *value bytes of
 * `out`, and later bytes are untouched. Refused: 27; 1 to 9 and 28, which is tested of a vertex after 3 and 4, and so before any later command; 13 if it does
 * not fit, never with GOLFCEDAR_EDITION_1_BYTES.
 * Moved there and back, a graph is the same; its bytes are the same if they were in the order that is written here. */
uint32_t golfcedar_to_edition_1(const uint8_t *graph, size_t graph_len, uint8_t *out, size_t out_len, uint64_t *value);

#ifdef __cplusplus
}
#endif

#endif
