/* Mezgaudre's erasure code over GF(256), a volume's layout and the length of a stripe's image, proved: link with libexports.a, which `rt lib` in crates/exports makes.

   A pointer, not null, and the number of bytes behind it stand for a buffer. The caller lends buffers that hold that many bytes,
   and one that a call writes overlaps no other. No call asks more than that: wrong sizes and lengths have their answers. */
#ifndef MEZGAUDRE_H
#define MEZGAUDRE_H

#include <stddef.h>
#include <stdint.h>

#ifdef __cplusplus
extern "C" {
#endif

/* The numbers of the answers. Only encoding or decoding answered MEZGAUDRE_ACCEPTED has written to out. */
enum {
    MEZGAUDRE_ACCEPTED = 0,
    MEZGAUDRE_OUT_OF_LIMITS = 1, /* the sizes, or a buffer's length */
    MEZGAUDRE_OUT_OF_RANGE = 2,  /* a node that is not one of 1 to n */
    MEZGAUDRE_TOO_FEW = 11,      /* fewer than k distinct nodes */
    MEZGAUDRE_NO_INVERSE = 12    /* proved never to be given */
};

/* What encoding and decoding return: the answer's number, and for MEZGAUDRE_TOO_FEW how many distinct nodes there were. */
static inline uint32_t mezgaudre_number(uint32_t answer) { return answer % 256; }
static inline uint32_t mezgaudre_size(uint32_t answer) { return answer / 256; }

/* Encodes k data blocks of b bytes into the n - k redundant blocks: k is 2 to 12, n - k is 1 to 6 and at most k, b is 1 to 4096,
   blocks has k * b bytes and out has (n - k) * b. */
uint32_t mezgaudre_encode(size_t k, size_t n, size_t b, const uint8_t *blocks, size_t blocks_length,
                          uint8_t *out, size_t out_length);

/* Decodes the k data blocks from the blocks of the given nodes, in any order: blocks is a table of n * b bytes, of which only the
   given nodes' blocks are read, and out has k * b. */
uint32_t mezgaudre_decode(size_t k, size_t n, size_t b, const uint8_t *nodes, size_t nodes_length,
                          const uint8_t *blocks, size_t blocks_length, uint8_t *out, size_t out_length);

/* a times b in GF(256). */
uint8_t mezgaudre_product(uint8_t a, uint8_t b);

/* Adds c times src to dst, and returns MEZGAUDRE_ACCEPTED; or where the lengths differ does nothing, and returns
   MEZGAUDRE_OUT_OF_LIMITS. */
uint32_t mezgaudre_add_times(uint8_t *dst, size_t dst_length, const uint8_t *src, size_t src_length, uint8_t c);

/* Where block b of a volume is, k blocks to a stripe: its stripe is b / k and its position b % k + 1. Blocks and stripes are
   counted from 0, positions from 1; both are 0 where k is not 1 to 12. */
size_t mezgaudre_block_stripe(size_t k, size_t b);
uint8_t mezgaudre_block_position(size_t k, size_t b);

/* The card, of n, that node j of stripe s is on: (j - 1 + s) % n + 1; and the node of stripe s that is on the card. Nodes and
   cards are counted from 1; 0 where n is more than 18, or the node or the card is not 1 to n. */
uint8_t mezgaudre_card(size_t n, size_t s, uint8_t j);
uint8_t mezgaudre_node_on(size_t n, size_t s, uint8_t card);

/* How many bytes the image of a stripe has (docs/IMAGE.md), by its sizes: failures are those planned for, 0 to n - k, and m is the
   number of clients, 1 to 8. 0 where the sizes are outside the limits. */
size_t mezgaudre_image_length(size_t k, size_t n, size_t b, size_t failures, size_t m);

#ifdef __cplusplus
}
#endif

#endif
