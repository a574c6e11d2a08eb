/*
 * Calls the three functions of cannm.h and compares each result with one that is computed here, from the
 * words of the header alone: cases at the edges, every conversion in range, and random inputs.
 *
 *   cannm_test [SEED]
 *
 * Every byte string is lent so that it ends at a page that cannot be read: a function that reads past the
 * end stops the program. Exit status 0: all alike, and each kind of result was seen; 1 otherwise.
 */
#define _DEFAULT_SOURCE
#include "cannm.h"

#include <inttypes.h>
#include <stdio.h>
#include <stdlib.h>
#include <string.h>
#include <sys/mman.h>
#include <unistd.h>

#define COUNT(array) (sizeof(array) / sizeof((array)[0]))
#define RANDOM_INPUTS 200000u
#define LONGEST_TIME 65535u
#define MOST UINT32_MAX
/* The most bytes that a test lends beside a page that cannot be read. */
#define ROOM 131072u

/* ---- What was seen */

enum kind {
    TICKS_DONE,
    TICKS_RULE_1,
    TICKS_RULE_2,
    FILTER_KEPT,
    FILTER_DROPPED,
    FILTER_LENGTH,
    READ_DONE,
    READ_RULE_6,
    READ_RULE_7,
    READ_LENGTH,
    KINDS
};

static const char *const kind_names[KINDS] = {
    [TICKS_DONE] = "ticks: answer 0",
    [TICKS_RULE_1] = "ticks: answer 2, rule 1",
    [TICKS_RULE_2] = "ticks: answer 2, rule 2",
    [FILTER_KEPT] = "filter: answer 0, kept",
    [FILTER_DROPPED] = "filter: answer 0, dropped",
    [FILTER_LENGTH] = "filter: answer 5",
    [READ_DONE] = "read: answer 0",
    [READ_RULE_6] = "read: answer 2, rule 6",
    [READ_RULE_7] = "read: answer 2, rule 7",
    [READ_LENGTH] = "read: answer 5",
};

static uint64_t seen[KINDS];

static void fail(const char *what) {
    fflush(stdout);
    fprintf(stderr, "cannm_test: FAILED: %s\n", what);
    exit(1);
}

/* ---- Random numbers: xorshift64* */

static uint64_t state;

static uint32_t any(void) {
    state ^= state >> 12;
    state ^= state << 25;
    state ^= state >> 27;
    return (uint32_t)((state * UINT64_C(2685821657736338717)) >> 32);
}

static uint32_t below(uint32_t n) { return (uint32_t)(((uint64_t)any() * n) >> 32); }

/* Numbers at the edges of what the functions tell apart, and of the types that could hold them. */
static const uint32_t edges[] = {
    0,     1,     2,     3,     6,     7,     8,          9,          20,         99,         100,
    101,   127,   128,   254,   255,   256,   257,        264,        356,        511,        512,
    65534, 65535, 65536, 65537, 65544, 65636, 0x7fffffff, 0x80000000, 0x80000001, 0xfffffffe, 0xffffffff,
};

static uint32_t edge(void) { return edges[below(COUNT(edges))]; }

/* ---- Lent bytes */

/* The first address that cannot be read, behind ROOM bytes that can. */
static uint8_t *make_room(void) {
    size_t page = (size_t)sysconf(_SC_PAGESIZE);
    size_t size = (ROOM + page - 1) / page * page;
    uint8_t *start = mmap(NULL, size + page, PROT_READ | PROT_WRITE, MAP_PRIVATE | MAP_ANONYMOUS, -1, 0);
    if (start == MAP_FAILED || mprotect(start + size, page, PROT_NONE) != 0)
        fail("no memory for lent bytes");
    return start + size;
}

static uint8_t *room_a, *room_b;

/* The bytes, copied to the end of a room; with no bytes, NULL or the place that cannot be read. */
static const uint8_t *lend(uint8_t *room, const uint8_t *bytes, size_t length) {
    if (length == 0)
        return below(2) == 0 ? NULL : room;
    if (length > ROOM)
        fail("a test lends more than it has room for");
    memcpy(room - length, bytes, length);
    return room - length;
}

static void print_bytes(const char *name, const uint8_t *bytes, size_t length) {
    fprintf(stderr, "  %s, %zu bytes:", name, length);
    for (size_t i = 0; i < length; i++)
        fprintf(stderr, " %02X", (unsigned)bytes[i]);
    fprintf(stderr, "\n");
}

/* ---- One call, compared */

static void check_ticks(uint32_t period, uint32_t ms) {
    cannm_ticks_result want = {0, 0, 0};
    enum kind kind = TICKS_DONE;
    if (period < 1 || period > 100) {
        kind = TICKS_RULE_1;
        want.answer = 2;
        want.rule = 1;
    } else if (ms > LONGEST_TIME) {
        kind = TICKS_RULE_2;
        want.answer = 2;
        want.rule = 2;
    } else {
        want.ticks = ms / period + (ms % period == 0 ? 0 : 1);
        if (want.ticks * period < ms || (want.ticks > 0 && (want.ticks - 1) * period >= ms))
            fail("the test's own conversion is wrong");
    }
    seen[kind]++;
    cannm_ticks_result got = cannm_ticks(period, ms);
    if (got.answer != want.answer || got.rule != want.rule || got.ticks != want.ticks) {
        fprintf(stderr, "cannm_ticks(period %" PRIu32 ", time %" PRIu32 ")\n", period, ms);
        fprintf(stderr, "  expected answer %" PRIu32 ", rule %" PRIu32 ", ticks %" PRIu32 "\n", want.answer,
                want.rule, want.ticks);
        fprintf(stderr, "  got      answer %" PRIu32 ", rule %" PRIu32 ", ticks %" PRIu32 "\n", got.answer,
                got.rule, got.ticks);
        fail("cannm_ticks");
    }
}

static void check_filter(uint32_t all, uint32_t cbv, const uint8_t *pn, size_t pn_length, const uint8_t *mask,
                         size_t mask_length) {
    cannm_filter_result want = {0, 0};
    enum kind kind = FILTER_DROPPED;
    if (pn_length != mask_length) {
        kind = FILTER_LENGTH;
        want.answer = 5;
    } else {
        int wanted = 0;
        for (size_t i = 0; i < pn_length; i++)
            if ((pn[i] & mask[i]) != 0)
                wanted = 1;
        if (all != 0 || ((cbv / 64) % 2 == 1 && wanted)) {
            kind = FILTER_KEPT;
            want.keep = 1;
        }
    }
    seen[kind]++;
    const uint8_t *lent_pn = lend(room_a, pn, pn_length);
    const uint8_t *lent_mask = lend(room_b, mask, mask_length);
    cannm_filter_result got = cannm_pn_filter(all, cbv, lent_pn, pn_length, lent_mask, mask_length);
    int touched = (pn_length > 0 && memcmp(lent_pn, pn, pn_length) != 0) ||
                  (mask_length > 0 && memcmp(lent_mask, mask, mask_length) != 0);
    if (got.answer != want.answer || got.keep != want.keep || touched) {
        fprintf(stderr, "cannm_pn_filter(all %" PRIu32 ", cbv 0x%" PRIX32 ", ..)\n", all, cbv);
        print_bytes("pn", pn, pn_length);
        print_bytes("mask", mask, mask_length);
        fprintf(stderr, "  expected answer %" PRIu32 ", keep %" PRIu32 "\n", want.answer, want.keep);
        fprintf(stderr, "  got      answer %" PRIu32 ", keep %" PRIu32 "\n", got.answer, got.keep);
        fail(touched ? "cannm_pn_filter wrote to its input" : "cannm_pn_filter");
    }
}

/* Rule 7, case by case. */
static int header_fits(uint32_t length, uint32_t sni, uint32_t cbv) {
    if (sni == CANNM_OFF && cbv == CANNM_OFF)
        return 1;
    if ((sni == 0 && cbv == CANNM_OFF) || (sni == CANNM_OFF && cbv == 0))
        return length >= 1;
    if ((sni == 0 && cbv == 1) || (sni == 1 && cbv == 0))
        return length >= 2;
    return 0;
}

static void check_read(uint32_t length, uint32_t sni, uint32_t cbv, const uint8_t *pdu, size_t pdu_length) {
    cannm_header_result want = {0, 0, 0, 0};
    enum kind kind = READ_DONE;
    if (length < 1 || length > 8) {
        kind = READ_RULE_6;
        want.answer = 2;
        want.rule = 6;
    } else if (!header_fits(length, sni, cbv)) {
        kind = READ_RULE_7;
        want.answer = 2;
        want.rule = 7;
    } else if (pdu_length != length) {
        kind = READ_LENGTH;
        want.answer = 5;
    } else {
        want.sni = sni == CANNM_OFF ? 0 : pdu[sni];
        want.cbv = cbv == CANNM_OFF ? 0 : pdu[cbv];
    }
    seen[kind]++;
    const uint8_t *lent = lend(room_a, pdu, pdu_length);
    cannm_header_result got = cannm_read_pdu(length, sni, cbv, lent, pdu_length);
    int touched = pdu_length > 0 && memcmp(lent, pdu, pdu_length) != 0;
    if (got.answer != want.answer || got.rule != want.rule || got.sni != want.sni || got.cbv != want.cbv ||
        touched) {
        fprintf(stderr, "cannm_read_pdu(length %" PRIu32 ", sni at %" PRIu32 ", cbv at %" PRIu32 ", ..)\n",
                length, sni, cbv);
        print_bytes("pdu", pdu, pdu_length);
        fprintf(stderr, "  expected answer %" PRIu32 ", rule %" PRIu32 ", sni %" PRIu32 ", cbv %" PRIu32 "\n",
                want.answer, want.rule, want.sni, want.cbv);
        fprintf(stderr, "  got      answer %" PRIu32 ", rule %" PRIu32 ", sni %" PRIu32 ", cbv %" PRIu32 "\n",
                got.answer, got.rule, got.sni, got.cbv);
        fail(touched ? "cannm_read_pdu wrote to its input" : "cannm_read_pdu");
    }
}

/* ---- Cases written out, with the numbers that they must give */

static void expect(int holds, const char *what) {
    if (!holds)
        fail(what);
}

static void named_cases(void) {
    expect(sizeof(cannm_ticks_result) == 12, "cannm_ticks_result is not three numbers of 32 bits");
    expect(sizeof(cannm_filter_result) == 8, "cannm_filter_result is not two numbers of 32 bits");
    expect(sizeof(cannm_header_result) == 16, "cannm_header_result is not four numbers of 32 bits");

    expect(cannm_ticks(20, 1010).ticks == 51, "1,010 ms at 20 ms are 51 ticks");
    expect(cannm_ticks(20, 1000).ticks == 50, "1,000 ms at 20 ms are 50 ticks");
    expect(cannm_ticks(20, 1).ticks == 1, "1 ms at 20 ms is 1 tick");
    expect(cannm_ticks(20, 0).ticks == 0 && cannm_ticks(20, 0).answer == 0, "0 ms at 20 ms are 0 ticks");
    expect(cannm_ticks(0, MOST).rule == 1, "the period is judged before the time");

    const uint8_t mask[] = {0x01, 0x97};
    const uint8_t out_of_mask[] = {0x00, 0x68}, all_but_mask[] = {0xFE, 0x68};
    const uint8_t second_byte[] = {0x00, 0x80}, first_byte[] = {0x01, 0x00};
    expect(cannm_pn_filter(0, 0x40, out_of_mask, 2, mask, 2).keep == 0, "00 68 is dropped");
    expect(cannm_pn_filter(0, 0x40, all_but_mask, 2, mask, 2).keep == 0, "FE 68 is dropped");
    expect(cannm_pn_filter(0, 0x40, second_byte, 2, mask, 2).keep == 1, "00 80 is kept");
    expect(cannm_pn_filter(0, 0x40, first_byte, 2, mask, 2).keep == 1, "01 00 is kept");
    expect(cannm_pn_filter(0, 0xBF, first_byte, 2, mask, 2).keep == 0, "with PNI 0 it is dropped");
    expect(cannm_pn_filter(1, 0xBF, out_of_mask, 2, mask, 2).keep == 1, "with keep-awake it is kept");
    expect(cannm_pn_filter(1, 0x40, first_byte, 2, mask, 1).answer == 5, "two PN bytes, one of the mask");
    expect(cannm_pn_filter(0, 0x40, NULL, 0, NULL, 0).answer == 0, "two empty strings are of one length");
    expect(cannm_pn_filter(0, 0x40, NULL, 0, NULL, 0).keep == 0, "with no PN bytes it is dropped");
    expect(cannm_pn_filter(1, 0x40, NULL, 0, NULL, 0).keep == 1,
           "with no PN bytes and keep-awake it is kept");

    const uint8_t pdu[9] = {0x21, 0x50, 3, 4, 5, 6, 7, 8, 9};
    cannm_header_result r = cannm_read_pdu(8, 0, 1, pdu, 8);
    expect(r.answer == 0 && r.rule == 0 && r.sni == 0x21 && r.cbv == 0x50, "SNI first, then CBV");
    r = cannm_read_pdu(8, 1, 0, pdu, 8);
    expect(r.answer == 0 && r.rule == 0 && r.sni == 0x50 && r.cbv == 0x21, "CBV first, then SNI");
    r = cannm_read_pdu(8, CANNM_OFF, 0, pdu, 8);
    expect(r.answer == 0 && r.rule == 0 && r.sni == 0 && r.cbv == 0x21, "CBV alone");
    expect(cannm_read_pdu(1, 0, 1, pdu, 1).rule == 7, "two header fields do not fit one byte");
    expect(cannm_read_pdu(8, 0, 0, pdu, 8).rule == 7, "two header fields in one byte");
    expect(cannm_read_pdu(8, 1, CANNM_OFF, pdu, 8).rule == 7, "byte 1 alone, SNI");
    expect(cannm_read_pdu(8, CANNM_OFF, 1, pdu, 8).rule == 7, "byte 1 alone, CBV");
    expect(cannm_read_pdu(9, 0, 1, pdu, 9).rule == 6, "nine bytes");
    expect(cannm_read_pdu(0, 2, 2, NULL, 0).rule == 6, "the length is judged before the positions");
    expect(cannm_read_pdu(8, 0, 1, pdu, 7).answer == 5, "seven bytes where eight belong");
    expect(cannm_read_pdu(8, 0, 1, pdu, 9).answer == 5, "nine bytes where eight belong");
    expect(cannm_read_pdu(8, 0, 1, NULL, 0).answer == 5, "no bytes where eight belong");
}

/* ---- Cases at the edges */

static void ticks_at_the_edges(void) {
    for (size_t i = 0; i < COUNT(edges); i++)
        for (size_t j = 0; j < COUNT(edges); j++)
            check_ticks(edges[i], edges[j]);
    for (uint32_t period = 0; period <= 101; period++)
        for (uint32_t ms = 0; ms <= LONGEST_TIME + 1; ms++)
            check_ticks(period, ms);
}

static void filter_at_the_edges(void) {
    static const uint32_t alls[] = {0, 1, 2, 256, 65536, 0x80000000, MOST};
    static const uint32_t cbvs[] = {0,     0x40,  0x41,  0x3F,       0xBF,       0xFF,
                                    0x100, 0x140, 0x1BF, 0x40000000, 0x80000040, 0xFFFFFFBF};
    static const uint8_t head[ROOM] = {1};
    static uint8_t last[ROOM];

    /* one byte: every byte and every mask */
    for (size_t c = 0; c < COUNT(cbvs); c++)
        for (uint32_t value = 0; value < 65536; value++) {
            uint8_t pn = (uint8_t)(value >> 8), mask = (uint8_t)value;
            check_filter(0, cbvs[c], &pn, 1, &mask, 1);
        }
    /* every number of bytes up to 16, on both sides, and every single bit */
    for (size_t a = 0; a < COUNT(alls); a++)
        for (size_t c = 0; c < COUNT(cbvs); c++)
            for (size_t p = 0; p <= 16; p++) {
                for (size_t m = 0; m <= 16; m++)
                    check_filter(alls[a], cbvs[c], head, p, head, m);
                for (size_t bit = 0; bit < 8 * p; bit++) {
                    uint8_t one[16] = {0}, rest[16];
                    one[bit / 8] = (uint8_t)(1u << (bit % 8));
                    for (size_t i = 0; i < 16; i++)
                        rest[i] = (uint8_t)~one[i];
                    check_filter(alls[a], cbvs[c], one, p, one, p);
                    check_filter(alls[a], cbvs[c], one, p, rest, p);
                    check_filter(alls[a], cbvs[c], rest, p, one, p);
                }
            }
    /* long strings, and lengths that are alike only in their low bits */
    static const size_t lengths[] = {0, 1, 2, 255, 256, 257, 258, 65535, 65536, 65537, ROOM};
    for (size_t p = 0; p < COUNT(lengths); p++) {
        for (size_t m = 0; m < COUNT(lengths); m++)
            check_filter(0, 0x40, head, lengths[p], head, lengths[m]);
        if (lengths[p] > 0) {
            memset(last, 0, sizeof(last));
            last[lengths[p] - 1] = 0x80;
            check_filter(0, 0x40, last, lengths[p], last, lengths[p]);
            check_filter(0, 0xBF, last, lengths[p], last, lengths[p]);
        }
    }
}

static void read_at_the_edges(void) {
    static const uint8_t bytes[1024] = {0xA1, 0xB2, 0xC3, 0xD4, 0xE5, 0xF6, 0x07, 0x18, 0x29};
    static const size_t lengths[] = {0, 1, 2, 3, 4, 5, 6, 7, 8, 9, 10, 255, 256, 257, 258, 264, 1024};
    for (size_t l = 0; l < COUNT(edges); l++)
        for (size_t s = 0; s < COUNT(edges); s++)
            for (size_t c = 0; c < COUNT(edges); c++)
                for (size_t n = 0; n < COUNT(lengths); n++)
                    check_read(edges[l], edges[s], edges[c], bytes, lengths[n]);
    static const uint32_t places[] = {0, 1, CANNM_OFF};
    for (uint32_t l = 0; l <= 9; l++)
        for (size_t s = 0; s < COUNT(places); s++)
            for (size_t c = 0; c < COUNT(places); c++)
                for (size_t n = 0; n <= 10; n++)
                    check_read(l, places[s], places[c], bytes, n);
}

/* Lengths that do not fit 32 bits: the low 32 bits of each are those of a length that would be right. */
static void huge_lengths(void) {
    size_t huge = ((size_t)1 << 32) + 8;
    int flags = MAP_PRIVATE | MAP_ANONYMOUS | MAP_NORESERVE;
    const uint8_t *zeros = mmap(NULL, huge, PROT_READ, flags, -1, 0);
    if (zeros == MAP_FAILED)
        fail("no address space for a byte string of 4 GiB");
    expect(cannm_read_pdu(8, 0, 1, zeros, huge).answer == 5, "a PDU of 2^32 + 8 bytes where 8 belong");
    expect(cannm_pn_filter(1, 0x40, zeros, huge, zeros, 8).answer == 5, "2^32 + 8 PN bytes, 8 of the mask");
    expect(cannm_pn_filter(1, 0x40, zeros, 8, zeros, huge).answer == 5, "8 PN bytes, 2^32 + 8 of the mask");
    expect(cannm_pn_filter(1, 0x40, NULL, 0, zeros, huge - 8).answer == 5, "no PN bytes, 2^32 of the mask");
    munmap((void *)zeros, huge);
}

/* ---- Random inputs */

static uint32_t number_up_to(uint32_t most) {
    switch (below(8)) {
    case 0:
        return any();
    case 1:
        return edge();
    default:
        return below(most + 1);
    }
}

static void random_ticks(void) {
    for (uint32_t i = 0; i < RANDOM_INPUTS; i++) {
        uint32_t period = number_up_to(102);
        check_ticks(period, number_up_to(70000));
    }
}

static void random_filter(void) {
    for (uint32_t i = 0; i < RANDOM_INPUTS; i++) {
        uint8_t pn[40], mask[40];
        size_t pn_length = below(4) == 0 ? below(41) : below(9);
        size_t mask_length = below(6) == 0 ? below(41) : pn_length;
        uint32_t dense = below(3);
        for (size_t k = 0; k < 40; k++) {
            pn[k] = (uint8_t)(dense == 0 ? any() : any() & any() & any());
            mask[k] = (uint8_t)(dense == 2 ? ~(uint32_t)pn[k] & any() : any() & any());
        }
        uint32_t all = below(4) == 0 ? number_up_to(3) : 0;
        uint32_t cbv = below(2) == 0 ? below(256) : any();
        check_filter(all, cbv, pn, pn_length, mask, mask_length);
    }
}

static uint32_t position(void) {
    switch (below(8)) {
    case 0:
        return number_up_to(3);
    case 1:
    case 2:
        return CANNM_OFF;
    default:
        return below(2);
    }
}

static void random_read(void) {
    for (uint32_t i = 0; i < RANDOM_INPUTS; i++) {
        uint8_t pdu[12];
        for (size_t k = 0; k < sizeof(pdu); k++)
            pdu[k] = (uint8_t)any();
        uint32_t length = below(8) == 0 ? number_up_to(10) : 1 + below(8);
        size_t pdu_length = length > 12 || below(4) == 0 ? below(13) : length;
        uint32_t sni = position();
        check_read(length, sni, position(), pdu, pdu_length);
    }
}

int main(int argc, char **argv) {
    uint64_t seed = argc > 1 ? strtoull(argv[1], NULL, 0) : 20240229;
    /* xorshift stands still at 0 */
    state = seed != 0 ? seed : 1;
    printf("cannm_test: seed %" PRIu64 "\n", seed);
    room_a = make_room();
    room_b = make_room();

    named_cases();
    ticks_at_the_edges();
    filter_at_the_edges();
    read_at_the_edges();
    huge_lengths();
    random_ticks();
    random_filter();
    random_read();

    uint64_t total = 0;
    for (int kind = 0; kind < KINDS; kind++) {
        printf("  %10" PRIu64 "  %s\n", seen[kind], kind_names[kind]);
        total += seen[kind];
    }
    for (int kind = 0; kind < KINDS; kind++)
        if (seen[kind] == 0)
            fail("a kind of result was never seen");
    printf("cannm_test: %" PRIu64 " calls compared, no difference\n", total);
    return 0;
}
