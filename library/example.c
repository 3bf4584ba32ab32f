/* Encodes four blocks, loses three of the seven, decodes and compares; then places blocks and nodes, and asks for lengths of images. What the library computes is
   checked by a product bit by bit, and by counting. */
#include "mezgaudre.h"

#include <stdio.h>
#include <stdlib.h>
#include <string.h>

enum { K = 4, N = 7, B = 512 };

/* The table: block j, from 1, stands at table[j - 1]. */
static uint8_t table[N][B];

static void expect(int right, const char *what)
{
    printf("%s: %s\n", right ? "right" : "WRONG", what);
    if (!right)
        exit(1);
}

/* a times b in GF(256), polynomial 0x11D, bit by bit. */
static uint8_t slow_product(uint8_t a, uint8_t b)
{
    uint8_t sum = 0;
    for (; b; b >>= 1) {
        if (b & 1)
            sum ^= a;
        a = (uint8_t)(a << 1 ^ (a & 0x80 ? 0x1D : 0));
    }
    return sum;
}

/* c(j,i), the inverse of (j-1) XOR (i-1), by trying. */
static uint8_t coefficient(unsigned j, unsigned i)
{
    uint8_t c = 1;
    while (slow_product(c, (uint8_t)((j - 1) ^ (i - 1))) != 1)
        c++;
    return c;
}

static int products_agree(void)
{
    for (unsigned a = 0; a < 256; a++)
        for (unsigned b = 0; b < 256; b++)
            if (mezgaudre_product((uint8_t)a, (uint8_t)b) != slow_product((uint8_t)a, (uint8_t)b))
                return 0;
    return 1;
}

/* Redundant block j, byte by byte. */
static int redundant_agrees(unsigned j)
{
    for (unsigned p = 0; p < B; p++) {
        uint8_t sum = 0;
        for (unsigned i = 1; i <= K; i++)
            sum ^= slow_product(coefficient(j, i), table[i - 1][p]);
        if (sum != table[j - 1][p])
            return 0;
    }
    return 1;
}

/* The difference of data block i and its new value, times c(j,i), makes redundant block j the new one. */
static int update_agrees(unsigned j, unsigned i)
{
    uint8_t difference[B];
    for (unsigned p = 0; p < B; p++) {
        difference[p] = (uint8_t)(p * 11 + 3);
        table[i - 1][p] ^= difference[p];
    }
    uint32_t answer = mezgaudre_add_times(table[j - 1], B, difference, B, coefficient(j, i));
    return answer == MEZGAUDRE_ACCEPTED && redundant_agrees(j);
}

/* The homes of 1,000 blocks: position by position, stripe by stripe. */
static int homes_agree(void)
{
    size_t stripe = 0;
    uint8_t position = 1;
    for (size_t b = 0; b < 1000; b++) {
        if (mezgaudre_block_stripe(K, b) != stripe || mezgaudre_block_position(K, b) != position)
            return 0;
        position++;
        if (position > K) {
            position = 1;
            stripe++;
        }
    }
    return 1;
}

/* The cards of the nodes of 1,000 stripes: node 1 a card further at each, the next node on the next card, and back by node_on. */
static int cards_agree(void)
{
    uint8_t card = 1;
    for (size_t s = 0; s < 1000; s++) {
        for (uint8_t j = 1; j <= N; j++) {
            if (mezgaudre_card(N, s, j) != card || mezgaudre_node_on(N, s, card) != j)
                return 0;
            card = card == N ? 1 : (uint8_t)(card + 1);
        }
        card = card == N ? 1 : (uint8_t)(card + 1);
    }
    return 1;
}

/* The length of an image: a header and the sizes, 140 bytes a node, 135 a client, two blocks a node and one a client. */
static size_t image_length(size_t n, size_t b, size_t m)
{
    size_t length = 4 + 6 * 8 + 8;
    for (size_t j = 0; j < n; j++)
        length += 140 + 2 * b;
    for (size_t c = 0; c < m; c++)
        length += 135 + b;
    return length;
}

static int image_lengths_agree(void)
{
    for (size_t m = 1; m <= 8; m++)
        for (size_t k = 2; k <= 12; k++)
            for (size_t n = k + 1; n <= k + 6 && n <= 2 * k; n++)
                for (size_t b = 1; b <= 4096; b *= 8)
                    if (mezgaudre_image_length(k, n, b, n - k, m) != image_length(n, b, m))
                        return 0;
    return 1;
}

int main(void)
{
    for (unsigned i = 0; i < K; i++)
        for (unsigned p = 0; p < B; p++)
            table[i][p] = (uint8_t)(p * p / 7 + 31 * p + 97 * i);

    expect(products_agree(), "all products");
    uint32_t answer = mezgaudre_encode(K, N, B, table[0], K * B, table[K], (N - K) * B);
    expect(answer == MEZGAUDRE_ACCEPTED, "encoding is accepted");
    expect(redundant_agrees(5) && redundant_agrees(6) && redundant_agrees(7), "the redundant blocks");

    uint8_t damaged[N][B], found[K][B];
    memcpy(damaged, table, sizeof table);
    memset(damaged[0], 0xA5, B);
    memset(damaged[2], 0xA5, B);
    memset(damaged[5], 0xA5, B);
    const uint8_t left[] = {7, 2, 5, 4};
    answer = mezgaudre_decode(K, N, B, left, 4, damaged[0], N * B, found[0], K * B);
    expect(answer == MEZGAUDRE_ACCEPTED, "decoding is accepted");
    expect(memcmp(found, table, K * B) == 0, "the data without blocks 1, 3 and 6");
    expect(update_agrees(6, 3), "a redundant block after an update");

    const uint8_t twice[] = {2, 7, 2}, beyond[] = {2, 4, 5, 8};
    answer = mezgaudre_decode(K, N, B, twice, 3, damaged[0], N * B, found[0], K * B);
    expect(mezgaudre_number(answer) == MEZGAUDRE_TOO_FEW && mezgaudre_size(answer) == 2, "two nodes are too few");
    answer = mezgaudre_decode(K, N, B, beyond, 4, damaged[0], N * B, found[0], K * B);
    expect(answer == MEZGAUDRE_OUT_OF_RANGE, "there is no node 8");
    answer = mezgaudre_encode(K, N, B, table[0], K * B - 1, damaged[K], (N - K) * B);
    expect(answer == MEZGAUDRE_OUT_OF_LIMITS, "a byte is missing");

    expect(homes_agree(), "the homes of 1,000 blocks");
    expect(cards_agree(), "the cards of 1,000 stripes");
    expect(mezgaudre_block_stripe(13, 30) == 0 && mezgaudre_block_position(13, 30) == 0, "no stripe has 13 data blocks");
    expect(mezgaudre_card(N, 0, N + 1) == 0 && mezgaudre_node_on(N, 0, 0) == 0, "there is no node 8 and no card 0");

    expect(image_lengths_agree(), "the lengths of images");
    expect(mezgaudre_image_length(12, 18, 4096, 6, 8) == 183884, "the longest image");
    expect(mezgaudre_image_length(12, 18, 4096, 7, 8) == 0, "no stripe of 18 nodes plans for 7 failures");
    return 0;
}
