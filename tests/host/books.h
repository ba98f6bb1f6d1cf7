/* The bytes that the host tests hand in: the clock tree of document 01, and books made here. */
#ifndef BOOKS_H
#define BOOKS_H

#include <stddef.h>
#include <stdint.h>
#include <stdio.h>
#include <stdlib.h>
#include <string.h>

enum { LONGEST = 65535, HEAD = 36, NONE = 65535 };

/* Model W of document 01: PUSH selects TICK if y, TICK has no prompt and depends on RTC. */
static const uint8_t W[95] = {
    95, 0, 255, 255,
    36, 0, 3, 0, 60, 0, 3, 0, 78, 0, 0, 0, 78, 0, 1, 0, 84, 0, 0, 0, 84, 0, 0, 0, 84, 0, 0, 0, 84, 0, 11, 0,
    0, 4, 0, 0, 1, 0, 1, 0,   0, 4, 4, 0, 0, 0, 2, 0,   0, 3, 8, 0, 1, 0, 1, 0,
    0, 0, 0, 0, 0, 0,   0, 0, 2, 0, 0, 0,   1, 0, 2, 0, 0, 0,
    0, 0, 1, 0, 1, 0,
    'P', 'U', 'S', 'H', 'T', 'I', 'C', 'K', 'R', 'T', 'C'
};
enum { W_TICK_DEPENDENCY = 36 + 8 + 6, W_SELECT_CONDITION = 78 + 4 };

/* A table for W with the values of PUSH, TICK and RTC. */
enum { W_TABLE = 19 };
static inline void w_table(uint8_t *out, int push, int tick, int rtc) {
    static const uint8_t head[16] = {19, 0, 3, 0, 0, 1, 16, 0, 0, 1, 17, 0, 0, 1, 18, 0};
    memcpy(out, head, 16);
    out[16] = (uint8_t)push;
    out[17] = (uint8_t)tick;
    out[18] = (uint8_t)rtc;
}

/* A book that is written from its front to its end: the counts are known before. */
struct writer {
    uint8_t *bytes;
    size_t at;
};
static inline void put1(struct writer *w, unsigned number) {
    if (w->at >= LONGEST) {
        fprintf(stderr, "a book over 65535 bytes\n");
        exit(2);
    }
    w->bytes[w->at++] = (uint8_t)number;
}
static inline void put2(struct writer *w, unsigned number) {
    put1(w, number & 255);
    put1(w, number >> 8 & 255);
}
static inline void put_contents(struct writer *w, unsigned modules, const unsigned counts[8]) {
    static const unsigned width[8] = {8, 6, 6, 6, 8, 8, 2, 1};
    unsigned start = HEAD;
    put2(w, 0);
    put2(w, modules);
    for (int section = 0; section < 8; section++) {
        put2(w, start);
        put2(w, counts[section]);
        start += counts[section] * width[section];
    }
    w->bytes[0] = (uint8_t)(start & 255);
    w->bytes[1] = (uint8_t)(start >> 8);
}
static inline void put_symbol(struct writer *w, unsigned type, unsigned name, unsigned length, unsigned prompt) {
    put1(w, type);
    put1(w, length);
    put2(w, name);
    put2(w, prompt);
    put2(w, 1);
}
static inline void put_node(struct writer *w, unsigned op, unsigned left, unsigned right) {
    put1(w, op);
    put1(w, 0);
    put2(w, left);
    put2(w, right);
}
static inline void put_three(struct writer *w, unsigned one, unsigned two, unsigned three) {
    put2(w, one);
    put2(w, two);
    put2(w, three);
}

/*
 * A book of exactly 65,535 bytes with records in every section, and a table that keeps every rule, so that a
 * check goes through all of its code. Symbols: 0 the modules symbol, 1 and 2 booleans in a choice, 3 a string,
 * 4 an int, 5 a hex, then tristates. Every boolean and tristate is n except symbols 0 and 1; each tristate
 * selects the next, and has defaults; the dependencies are y. The names of the tristates are four letters each.
 */
enum { FULL_TRISTATES = 1500, FULL_SYMBOLS = 6 + FULL_TRISTATES, FULL_SELECTS = 1400, FULL_DEFAULTS = 1400,
       FULL_RANGES = 100, FULL_NAMES = 6 * 4 + 4 * FULL_TRISTATES };
static inline size_t full_book(uint8_t *model) {
    unsigned used = HEAD + 8 * FULL_SYMBOLS + 6 * (FULL_DEFAULTS + FULL_SELECTS) + 8 * FULL_RANGES + 8 + 2 * 2 + FULL_NAMES;
    unsigned nodes = (LONGEST - used) / 6;
    unsigned texts = FULL_NAMES + (LONGEST - used) % 6;
    unsigned counts[8] = {FULL_SYMBOLS, 0, FULL_DEFAULTS, FULL_SELECTS, FULL_RANGES, 1, 2, 0};
    struct writer w = {model, 0};
    counts[1] = nodes;
    counts[7] = texts;
    put_contents(&w, 0, counts);
    for (unsigned s = 0; s < FULL_SYMBOLS; s++) {
        static const unsigned types[6] = {0, 0, 0, 2, 3, 4};
        put_symbol(&w, s < 6 ? types[s] : 1, 4 * s, 4, s < 6 || s % 3 == 0 ? 1 : 0);
    }
    put_node(&w, 0, 0, 0);                                   /* 0: n */
    put_node(&w, 0, 2, 0);                                   /* 1: y */
    put_node(&w, 3, 0, 0x8000);                              /* 2: int -2147483648 */
    put_node(&w, 3, 0xffff, 0x7fff);                         /* 3: int 2147483647 */
    put_node(&w, 4, 0, 0);                                   /* 4: hex 0x0 */
    put_node(&w, 4, 0xffff, 0xffff);                         /* 5: hex 0xffffffff */
    put_node(&w, 2, 0, 64);                                  /* 6: a text of 64 bytes */
    for (unsigned s = 0; s < 7; s++)
        put_node(&w, 1, s, 0);                               /* 7 to 13: symbols 0 to 6 */
    for (unsigned n = 14; n < nodes; n++) {
        unsigned leaf = n * 5 % 14, other = n / 14 % 14;
        switch (n % 5) {
        case 0: put_node(&w, 5, n - 1, 0); break;
        case 1: put_node(&w, 6, n - 1, n - 7); break;
        case 2: put_node(&w, 7, n - 2, n - 5); break;
        case 3: put_node(&w, 8, leaf, other); break;
        default: put_node(&w, 9, other, leaf); break;
        }
    }
    for (unsigned d = 0; d < FULL_DEFAULTS; d++)
        put_three(&w, 6 + d % FULL_TRISTATES, 0, d % nodes); /* n, on some condition */
    for (unsigned k = 0; k < FULL_SELECTS; k++)
        put_three(&w, 6 + k % (FULL_TRISTATES - 1), 7 + k % (FULL_TRISTATES - 1), k % nodes);
    for (unsigned r = 0; r < FULL_RANGES; r++) {
        put2(&w, r % 2 ? 4 : 5);
        put2(&w, r % 2 ? 2 : 4);
        put2(&w, r % 2 ? 3 : 5);
        put2(&w, 1);
    }
    put1(&w, 0);                                             /* the choice: boolean, mandatory, prompt y */
    put1(&w, 1);
    put_three(&w, 1, 0, 2);
    put2(&w, 1);
    put2(&w, 2);
    for (unsigned s = 0; s < FULL_SYMBOLS; s++) {
        put1(&w, 'A' + s / 676 % 26);
        put1(&w, 'A' + s / 26 % 26);
        put1(&w, 'A' + s % 26);
        put1(&w, '_');
    }
    while (w.at < LONGEST)
        put1(&w, '.');
    return w.at;
}
static inline size_t full_table(uint8_t *table) {
    struct writer w = {table, 0};
    unsigned start = 4 + 4 * FULL_SYMBOLS;
    for (int bodies = 0; bodies < 2; bodies++) {
        if (!bodies) {
            put2(&w, 4 + 5 * FULL_SYMBOLS + 63 + 3 + 3);
            put2(&w, FULL_SYMBOLS);
        }
        for (unsigned s = 0; s < FULL_SYMBOLS; s++) {
            static const unsigned kinds[6] = {0, 0, 0, 1, 2, 3}, lengths[6] = {1, 1, 1, 64, 4, 4};
            unsigned length = s < 6 ? lengths[s] : 1;
            if (!bodies) {
                put1(&w, s < 6 ? kinds[s] : 0);
                put1(&w, length);
                put2(&w, start);
                start += length;
            } else if (s == 4 || s == 5) {
                put2(&w, 0x0001);                            /* int -2147483647, hex 0x80000001 */
                put2(&w, 0x8000);
            } else {
                for (unsigned i = 0; i < length; i++)
                    put1(&w, s < 2 ? 2 : s == 3 ? 'A' : 0);
            }
        }
    }
    return w.at;
}

/*
 * A clearance of select 0 with so many splits on its one long path, on symbols from first on with so many
 * values each. Every leaf is the mark 20, save for the deepest, which has this rule and place.
 */
static inline size_t deep_clearance(uint8_t *finding, unsigned depth, unsigned first, unsigned values, unsigned rule,
                                    unsigned place) {
    struct writer w = {finding, 0};
    put2(&w, 0);
    put2(&w, 1);
    for (unsigned d = 0; d < depth; d++) {
        put1(&w, 0);
        put2(&w, first + d);
        for (unsigned v = 1; v < values; v++) {
            put1(&w, 1);
            put1(&w, 20);
            put2(&w, 0);
        }
    }
    put1(&w, 1);
    put1(&w, rule);
    put2(&w, place);
    return w.at;
}

/*
 * A model of 64 booleans with prompt y, the first selecting the second, for the deep clearance alone. The select's condition is
 * so many nots over an equality of an int and a hex, which are both spelled out.
 */
static inline size_t small_deep_book(uint8_t *model, unsigned nots) {
    const unsigned counts[8] = {64, 5 + nots, 0, 1, 0, 0, 0, 128};
    struct writer w = {model, 0};
    put_contents(&w, NONE, counts);
    for (unsigned s = 0; s < 64; s++)
        put_symbol(&w, 0, 2 * s, 2, 1);
    put_node(&w, 0, 0, 0);
    put_node(&w, 0, 2, 0);
    put_node(&w, 3, 0, 0x8000);
    put_node(&w, 4, 0xffff, 0xffff);
    put_node(&w, 8, 2, 3);
    for (unsigned n = 0; n < nots; n++)
        put_node(&w, 5, 4 + n, 0);
    put_three(&w, 0, 1, 4 + nots);
    for (unsigned s = 0; s < 64; s++) {
        put1(&w, 'A' + s / 26);
        put1(&w, 'A' + s % 26);
    }
    return w.at;
}

#endif
