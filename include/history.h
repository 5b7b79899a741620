/* The questions about a finished history, for a host written in C. Link target/staticlib/libpage.a (x86-64; made by
 * `tools/archive page`). The functions keep nothing between calls, take no memory and write to nothing but `answer`; any
 * number of threads may ask about the same nodes at the same time.
 *
 * A finished history is nine numbers and its nodes:
 *
 *   start, latest   the first instant and the time of the finish, in universal nanoseconds; each at most 2^63-1
 *   attributes      how many attributes there are, at most 4,096; they are quarks 0 to attributes-1
 *   k, c, n         intervals per node (at least 1), children per node (2 to 50), nodes (1 to 65,536), as at the opening
 *   used            how many nodes there are, 1 to n
 *   root, level     the root's place (below used) and level (at most 15)
 *   nodes           the node buffer, at least n * (32 + 12 * c + 32 * k) bytes; a node has at most 65,536 bytes
 *
 * Every content of the nodes and every value of the numbers is allowed: what is damaged is refused, and each call ends.
 * The caller owes three things: each pointer is not null and has as many bytes behind it as its length says, nobody writes
 * to `nodes` during the call, and `answer` does not overlap `nodes`.
 *
 * What comes back:
 *
 *   0  accepted; the answer is written
 *   2  too short: nodes_len below n times the node size, or answer_len below what the answer needs
 *   3  damaged: a number above is outside its range, or a node on the way breaks a rule (R1 to R7)
 *   6  t is before start or after latest
 *   7  no such quark (only a single question says so)
 *
 * Where several hold, the first in the order 3 (numbers), 2, 7, 6, 3 (nodes) is returned. On a refusal not a byte of
 * `answer` is written; on 0 exactly the bytes below, and none after them.
 *
 * The answer, little-endian: how many nodes were entered (u64), then entries of 32 bytes each:
 *
 *   byte  0  quark    u32
 *   byte  4  kind     u8    0 null, 1 a signed integer; three zero bytes follow
 *   byte  8  start    u64   first instant of the state
 *   byte 16  end      u64   last instant of the state
 *   byte 24  value    i64   0 for null
 */
#ifndef HISTORY_H
#define HISTORY_H

#include <stddef.h>
#include <stdint.h>

#ifdef __cplusplus
extern "C" {
#endif

/* The state of one attribute at t. The answer needs 40 bytes. */
uint32_t history_single(uint64_t start, uint64_t latest, uint32_t attributes, uint32_t k, uint32_t c, uint32_t n, uint32_t used,
                        uint32_t root, uint32_t level, uint64_t t, uint32_t quark,
                        const uint8_t *nodes, size_t nodes_len, uint8_t *answer, size_t answer_len);

/* The states of all attributes at t, in the order of their quarks. The answer needs 8 + 32 * attributes bytes. */
uint32_t history_full(uint64_t start, uint64_t latest, uint32_t attributes, uint32_t k, uint32_t c, uint32_t n, uint32_t used,
                      uint32_t root, uint32_t level, uint64_t t,
                      const uint8_t *nodes, size_t nodes_len, uint8_t *answer, size_t answer_len);

#ifdef __cplusplus
}
#endif

#endif
