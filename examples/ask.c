/* Asks a finished history from C. Built in the repository's root, after `tools/archive page`:
 *
 *   cc -std=c99 -I include examples/ask.c target/staticlib/libpage.a -o ask
 */
#include "history.h"

#include <inttypes.h>
#include <stdio.h>

/* A little-endian number of the answer. */
static uint64_t number(const uint8_t *bytes, int count) {
    uint64_t all = 0;
    while (count-- > 0) all = all << 8 | bytes[count];
    return all;
}

int main(void) {
    /* A host loads the numbers and the nodes from where the study was saved. Here: one attribute, null for ten nanoseconds
     * and then 7, in one node that has room for K 2 intervals and C 2 children. */
    enum { K = 2, C = 2, N = 1, CHILDREN = 32, INTERVALS = CHILDREN + 12 * C, SIZE = INTERVALS + 32 * K };
    uint8_t nodes[N * SIZE] = {0};
    uint8_t answer[8 + 32];
    uint32_t refusal;
    int i;

    nodes[8] = 19; /* the node's end; its start, place and level are 0 */
    for (i = 20; i < 24; i++) nodes[i] = 255; /* it has no parent */
    nodes[24] = 2; /* two intervals */
    nodes[29] = 2; /* closed */
    nodes[INTERVALS + 16] = 9; /* quark 0: null from 0 to 9 */
    nodes[INTERVALS + 32 + 4] = 1; /* quark 0: an integer, */
    nodes[INTERVALS + 32 + 8] = 10; /* from 10 */
    nodes[INTERVALS + 32 + 16] = 19; /* to 19, */
    nodes[INTERVALS + 32 + 24] = 7; /* which is 7 */

    refusal = history_single(0, 19, 1, K, C, N, 1, 0, 0, 12, 0, nodes, sizeof nodes, answer, sizeof answer);
    if (refusal != 0) {
        printf("refused: %" PRIu32 "\n", refusal);
        return 1;
    }
    printf("attribute 0 at 12: %" PRId64 " from %" PRIu64 " to %" PRIu64 "\n", (int64_t)number(answer + 32, 8),
           number(answer + 16, 8), number(answer + 24, 8));

    refusal = history_full(0, 19, 1, K, C, N, 1, 0, 0, 3, nodes, sizeof nodes, answer, sizeof answer);
    if (refusal != 0) {
        printf("refused: %" PRIu32 "\n", refusal);
        return 1;
    }
    printf("attribute 0 at 3: %s from %" PRIu64 " to %" PRIu64 "\n", answer[8 + 4] == 0 ? "null" : "an integer",
           number(answer + 16, 8), number(answer + 24, 8));

    refusal = history_single(0, 19, 1, K, C, N, 1, 0, 0, 20, 0, nodes, sizeof nodes, answer, sizeof answer);
    printf("attribute 0 at 20: refused, number %" PRIu32 "\n", refusal);
    return 0;
}
