/* Encode and decode 12+6 beside the libraries ISA-L and GF-Complete, in one run: GB/s of bytes multiplied, a source byte counting once for each
   block that it is multiplied into. A peer is handed its weights, with its tables for them made beforehand; Mezgaudre makes its weights in each
   call. Each buffer has its own fixed offset in a page, and the upper halves of the vector registers are cleared before each round. The last column
   is how many times as long as Mezgaudre the peer takes. */
#include <gf_complete.h>
#include <isa-l/erasure_code.h>
#include <stdio.h>
#include <stdlib.h>
#include <string.h>
#include <time.h>

#include "../library/mezgaudre.h"

enum { K = 12, N = 18, LOST = N - K, MOST = 4096, ROUNDS = 400 };

void ec_encode_data_sse(int, int, int, unsigned char *, unsigned char **, unsigned char **);
void ec_encode_data_avx2(int, int, int, unsigned char *, unsigned char **, unsigned char **);
void ec_encode_data_base(int, int, int, unsigned char *, unsigned char **, unsigned char **);

static size_t b;
static uint8_t *table, *out; /* the n blocks, and what a call writes */
static uint8_t left[K];      /* the nodes that decoding reads: data blocks 1 to 6 are lost */
static uint8_t weights[LOST * K];
static unsigned char isal_tables[32 * LOST * K], *sources[K], *results[LOST];
static gf_t gf;

static void check(uint32_t answer) {
    if (answer != MEZGAUDRE_ACCEPTED) { fprintf(stderr, "answer %u\n", answer); exit(1); }
}

static void mezgaudre(int decoding) {
    if (decoding) check(mezgaudre_decode(K, N, b, left, K, table, N * b, out, K * b));
    else check(mezgaudre_encode(K, N, b, table, K * b, out, LOST * b));
}

static void gf_complete(int decoding) {
    (void)decoding;
    for (int j = 0; j < LOST; j++)
        for (int i = 0; i < K; i++) gf.multiply_region.w32(&gf, sources[i], results[j], weights[j * K + i], (int)b, i > 0);
}

static void isal_base(int decoding) { (void)decoding; ec_encode_data_base((int)b, K, LOST, isal_tables, sources, results); }
static void isal_sse(int decoding) { (void)decoding; ec_encode_data_sse((int)b, K, LOST, isal_tables, sources, results); }
static void isal_avx2(int decoding) { (void)decoding; ec_encode_data_avx2((int)b, K, LOST, isal_tables, sources, results); }

/* The weights are what the byte 1 in one block alone gives. */
static void prepare(int decoding) {
    size_t width = b;
    uint8_t *kept = table, *wrote = out, tiny[N], made[K];
    for (int i = 0; i < K; i++) {
        memset(tiny, 0, sizeof tiny);
        tiny[decoding ? left[i] - 1 : i] = 1;
        b = 1, table = tiny, out = made;
        mezgaudre(decoding);
        for (int j = 0; j < LOST; j++) weights[j * K + i] = made[j];
        b = width, table = kept, out = wrote;
        sources[i] = table + (decoding ? left[i] - 1 : i) * b;
    }
    for (int j = 0; j < LOST; j++) results[j] = out + j * b;
    ec_init_tables(K, LOST, weights, isal_tables);
}

static double seconds(void) {
    struct timespec t;
    clock_gettime(CLOCK_MONOTONIC, &t);
    return t.tv_sec + 1e-9 * t.tv_nsec;
}

/* The best of all rounds. */
static double time_of(void (*call)(int), int decoding) {
    double from = seconds(), best = 1e9;
    call(decoding);
    int calls = (int)(5e-4 / (seconds() - from)) + 1;
    for (int r = 0; r < ROUNDS; r++) {
        __asm__ volatile("vzeroupper");
        from = seconds();
        for (int i = 0; i < calls; i++) call(decoding);
        double took = (seconds() - from) / calls;
        if (took < best) best = took;
    }
    return best;
}

int main(void) {
    static const struct { const char *name; void (*call)(int); } peers[] = {
        {"Mezgaudre", mezgaudre}, {"GF-Complete", gf_complete}, {"ISA-L, SSE", isal_sse}, {"ISA-L, AVX2", isal_avx2}, {"ISA-L, portable C", isal_base},
    };
    static const size_t lengths[] = {64, 512, MOST};
    uint8_t *pages = aligned_alloc(4096, 1 << 20), *wanted = malloc(K * MOST);
    table = pages + 64, out = pages + (1 << 19) + 2048 + 64;
    for (int i = 0; i < K; i++) left[i] = (uint8_t)(LOST + 1 + i);
    gf_init_easy(&gf, 8);
    double own[2][3];
    printf("%-8s%6s  %-20s%10s%8s%8s\n", "", "B", "", "ns", "GB/s", "ratio");
    for (int decoding = 0; decoding < 2; decoding++)
        for (int l = 0; l < 3; l++) {
            b = lengths[l];
            for (size_t i = 0; i < K * b; i++) table[i] = (uint8_t)(i * 2654435761u >> 13);
            check(mezgaudre_encode(K, N, b, table, K * b, table + K * b, LOST * b));
            prepare(decoding);
            mezgaudre(decoding);
            memcpy(wanted, out, LOST * b);
            for (size_t p = 0; p < sizeof peers / sizeof *peers; p++) {
                memset(out, 0, LOST * b);
                peers[p].call(decoding);
                if (memcmp(out, wanted, LOST * b)) { fprintf(stderr, "%s has other bytes\n", peers[p].name); return 1; }
                double took = time_of(peers[p].call, decoding);
                if (p == 0) own[decoding][l] = took;
                printf("%-8s%6zu  %-20s%10.0f%8.2f%8.2f\n", decoding ? "decode" : "encode", b, peers[p].name, took * 1e9, K * LOST * b / took / 1e9,
                       took / own[decoding][l]);
            }
        }
    /* Decoding puts out K blocks, of which LOST are computed and the rest copied; encoding puts out LOST. */
    double beside = own[0][2] / own[1][2];
    printf("decode beside encode at %d, per byte of output: %.2f; per byte of a lost block: %.2f\n", MOST, beside * K / LOST, beside);
    return 0;
}
