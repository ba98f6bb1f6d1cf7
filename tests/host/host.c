/*
 * A C host that calls every function of the archive with good and bad bytes.
 *
 * Each call is made three times, with everything that is lent laid out anew: in heap blocks of the exact size, where
 * the sanitizers watch what this file and the header do; against the end of pages that nobody may touch; and behind
 * such pages. So a byte read or written outside by the archive, which is not instrumented, ends the run too.
 */
#define _DEFAULT_SOURCE
#include "books.h"
#include "plaitcrumb.h"
#include <pthread.h>
#include <stdarg.h>
#include <sys/mman.h>
#include <unistd.h>

enum place { EXACT, BEFORE_GUARD, AFTER_GUARD, PLACES };
enum slot { MODEL, BYTES, NODES, SYMBOLS, SLOTS };
enum { ARENA = 36 * 4096, MARGIN = 64, UNTOUCHED = 0x5a, ROOM = 70000 };

static const char *const place_words[PLACES] = {"heap block", "before a guard page", "after a guard page"};
static uint8_t *arena[SLOTS];
static long checks, failed;
static const char *current = "";

/* Counts a failure, and shows the first 20. */
static void fail(const char *format, ...) {
    va_list list;
    failed++;
    if (failed > 20)
        return;
    fprintf(stderr, "host: %s: ", current);
    va_start(list, format);
    vfprintf(stderr, format, list);
    va_end(list);
    fprintf(stderr, "\n");
}

/* Numbers that are the same on every machine. */
static uint64_t dice_state = 1;
static unsigned dice(unsigned limit) {
    dice_state = dice_state * 6364136223846793005u + 1442695040888963407u;
    return (unsigned)((dice_state >> 33) % limit);
}

/* Four arenas, each between two pages that nobody may touch. */
static void make_arenas(void) {
    size_t page = (size_t)sysconf(_SC_PAGESIZE);
    for (int slot = 0; slot < SLOTS; slot++) {
        uint8_t *map = mmap(NULL, ARENA + 2 * page, PROT_NONE, MAP_PRIVATE | MAP_ANONYMOUS, -1, 0);
        if (map == MAP_FAILED || mprotect(map + page, ARENA, PROT_READ | PROT_WRITE)) {
            perror("host: mmap");
            exit(2);
        }
        arena[slot] = map + page;
    }
}

/* A clearance of select 0: one leaf with the mark 20. */
static const uint8_t LEAF[8] = {0, 0, 1, 0, 1, 20, 0, 0};

/* W with one byte changed. */
static void changed_w(uint8_t *model, size_t at, unsigned to) {
    memcpy(model, W, sizeof W);
    model[at] = (uint8_t)to;
}

/* What a room holds when it is lent. */
static uint8_t fill_byte(size_t index) {
    return (uint8_t)(0x80 | index * 37);
}

/* Lends a copy of the bytes, or a filled room where there are none to copy. An empty heap block is NULL. */
static uint8_t *lend(enum slot slot, enum place place, const uint8_t *from, size_t len) {
    uint8_t *out;
    if (place == EXACT) {
        out = len ? malloc(len) : NULL;
        if (len && !out)
            exit(2);
    } else if (place == BEFORE_GUARD) {
        out = arena[slot] + ARENA - len;
        memset(out - MARGIN, UNTOUCHED, MARGIN);
    } else {
        out = arena[slot];
        memset(out + len, UNTOUCHED, MARGIN);
    }
    for (size_t i = 0; i < len; i++)
        out[i] = from ? from[i] : fill_byte(i);
    return out;
}

/* Takes a lent buffer back: its margin must be untouched. */
static void take_back(enum slot slot, enum place place, uint8_t *lent, size_t len) {
    if (place == EXACT) {
        free(lent);
        return;
    }
    uint8_t *margin = place == BEFORE_GUARD ? lent - MARGIN : lent + len;
    for (int i = 0; i < MARGIN; i++)
        if (margin[i] != UNTOUCHED) {
            fail("a byte outside of buffer %d was written (%s)", (int)slot, place_words[place]);
            return;
        }
}

/* A check, by what it is given. */
struct call {
    int finding;
    const uint8_t *model;
    size_t model_len;
    const uint8_t *bytes;
    size_t bytes_len, node_len, symbol_len;
};

/* What a check gave: its result, and both rooms. */
struct seen {
    uint64_t result;
    uint8_t nodes[ROOM], symbols[ROOM];
};

/* Makes one call, and sees to it that nothing but the rooms was written. */
static void run(const struct call *c, enum place place, struct seen *seen) {
    uint8_t *model = lend(MODEL, place, c->model, c->model_len);
    uint8_t *bytes = lend(BYTES, place, c->bytes, c->bytes_len);
    uint8_t *nodes = lend(NODES, place, NULL, c->node_len);
    uint8_t *symbols = lend(SYMBOLS, place, NULL, c->symbol_len);
    if (c->finding)
        seen->result = plaitcrumb_check_finding(model, c->model_len, bytes, c->bytes_len, nodes, c->node_len, symbols,
                                                c->symbol_len);
    else
        seen->result = plaitcrumb_check_table(model, c->model_len, bytes, c->bytes_len, nodes, c->node_len);
    checks++;
    if (c->model_len && memcmp(model, c->model, c->model_len))
        fail("the model was written to (%s)", place_words[place]);
    if (c->bytes_len && memcmp(bytes, c->bytes, c->bytes_len))
        fail("the table or finding was written to (%s)", place_words[place]);
    if (c->node_len)
        memcpy(seen->nodes, nodes, c->node_len);
    if (c->symbol_len)
        memcpy(seen->symbols, symbols, c->symbol_len);
    take_back(MODEL, place, model, c->model_len);
    take_back(BYTES, place, bytes, c->bytes_len);
    take_back(NODES, place, nodes, c->node_len);
    take_back(SYMBOLS, place, symbols, c->symbol_len);
}

/* Whether an answer leaves the rooms as they were. */
static int refused(const struct call *c, unsigned answer) {
    return (answer >= 1 && answer <= 4) || answer == 7 || answer == 8 || answer == 21 ||
           (!c->finding && (answer == 5 || answer == 6));
}

/* The rooms after a call: as many bytes as this from the front are as given, the rest is as lent. */
static void same_room(const char *word, const uint8_t *room, size_t len, const uint8_t *front, size_t count) {
    for (size_t i = 0; i < len; i++) {
        uint8_t due = i < count ? front[i] : fill_byte(i);
        if (room[i] != due) {
            fail("byte %zu of the %s work is %u and should be %u", i, word, room[i], due);
            return;
        }
    }
}

static const uint8_t zeroes[ROOM];

/* How many nodes a model counts for the check after the book: bytes 10 and 11, zero where there are none. */
static size_t counted(const uint8_t *model, size_t len) {
    return (len > 10 ? model[10] : (size_t)0) | (len > 11 ? (size_t)model[11] << 8 : 0);
}

/*
 * The book's check, and the check after it. In a good book the second is the table check, whose result is given; in
 * a bad one the first is, and the second still gives a number of its own and keeps to the nodes' part of the room.
 */
static void in_turn(const struct call *c, enum place place, const struct seen *whole) {
    uint8_t *model = lend(MODEL, place, c->model, c->model_len);
    uint8_t *bytes = lend(BYTES, place, c->bytes, c->bytes_len);
    uint8_t *nodes = lend(NODES, place, NULL, c->node_len);
    uint64_t book = plaitcrumb_check_book(model, c->model_len);
    uint64_t result = plaitcrumb_check_table_in(model, c->model_len, bytes, c->bytes_len, nodes, c->node_len);
    uint64_t answer = result >> 32;
    checks += 2;
    if ((book >> 32 ? book : result) != whole->result)
        fail("the book draws %#lx, then the table %#lx, and both at once %#lx", (unsigned long)book,
             (unsigned long)result, (unsigned long)whole->result);
    if (book >> 32 > 4 || (answer >= 1 && answer <= 4) || (answer >= 8 && answer <= 9) || answer > 18)
        fail("the book is answered %lu, and the table after it %lu", (unsigned long)(book >> 32), (unsigned long)answer);
    size_t most = answer >= 5 && answer <= 7 ? 0 : counted(c->model, c->model_len);
    same_room("node", nodes, c->node_len, book >> 32 ? nodes : whole->nodes, most);
    if ((c->model_len && memcmp(model, c->model, c->model_len)) || (c->bytes_len && memcmp(bytes, c->bytes, c->bytes_len)))
        fail("the model or the table was written to (%s)", place_words[place]);
    take_back(MODEL, place, model, c->model_len);
    take_back(BYTES, place, bytes, c->bytes_len);
    take_back(NODES, place, nodes, c->node_len);
}

/* A name without a look at the book: in the model whatever it is, and in a good book the name that is given. */
static void name_in_turn(const uint8_t *model, size_t len, size_t index, uint64_t whole) {
    uint64_t r = plaitcrumb_name_in(model, len, index);
    size_t start = plaitcrumb_name_start(r), length = plaitcrumb_name_length(r);
    checks++;
    if (length > 255 || start > len || length > len - start)
        fail("symbol %zu of any bytes: %zu bytes from %zu, of %zu", index, length, start, len);
    if (plaitcrumb_check_book(model, len) >> 32 == 0 && r != whole)
        fail("symbol %zu: %zu bytes from %zu, and another name with a look at the book", index, length, start);
}

/*
 * A call whose result is known, in all places. The node bytes are given for a table check that is not refused;
 * the rooms are exact, short, or longer as the call says.
 */
static void expect(const char *name, const struct call *c, unsigned answer, unsigned place, unsigned second,
                   const uint8_t *node_bytes) {
    static struct seen seen;
    size_t nodes = plaitcrumb_nodes(c->model, c->model_len), symbols = plaitcrumb_symbols(c->model, c->model_len);
    current = name;
    for (int at = 0; at < PLACES; at++) {
        run(c, (enum place)at, &seen);
        if (plaitcrumb_answer(seen.result) != answer || plaitcrumb_place(seen.result) != place ||
            plaitcrumb_second(seen.result) != second)
            fail("answered %u %u %u and should answer %u %u %u (%s)", plaitcrumb_answer(seen.result),
                 plaitcrumb_place(seen.result), plaitcrumb_second(seen.result), answer, place, second, place_words[at]);
        if (!c->finding)
            in_turn(c, (enum place)at, &seen);
        int untouched = refused(c, answer);
        same_room("node", seen.nodes, c->node_len, node_bytes ? node_bytes : zeroes, untouched ? 0 : nodes);
        same_room("symbol", seen.symbols, c->symbol_len, zeroes, untouched || !c->finding ? 0 : symbols);
    }
}

/* A table check and a finding check with rooms of these lengths. */
static struct call table_call(const uint8_t *model, size_t model_len, const uint8_t *table, size_t table_len, size_t room) {
    struct call c = {0, model, model_len, table, table_len, room, 0};
    return c;
}
static struct call finding_call(const uint8_t *model, size_t model_len, const uint8_t *finding, size_t finding_len,
                                size_t nodes, size_t symbols) {
    struct call c = {1, model, model_len, finding, finding_len, nodes, symbols};
    return c;
}

/* The name of a symbol, in all places; an empty text where there should be none. */
static void expect_name(const uint8_t *model, size_t model_len, size_t index, const char *name) {
    current = "name";
    for (int at = 0; at < PLACES; at++) {
        uint8_t *lent = lend(MODEL, (enum place)at, model, model_len);
        uint64_t r = plaitcrumb_name(lent, model_len, index);
        size_t start = plaitcrumb_name_start(r), length = plaitcrumb_name_length(r);
        checks++;
        if (length != strlen(name) || start > model_len || length > model_len - start ||
            (length && memcmp(lent + start, name, length)))
            fail("symbol %zu: %zu bytes from %zu, should be \"%s\"", index, length, start, name);
        name_in_turn(lent, model_len, index, r);
        if (model_len && memcmp(lent, model, model_len))
            fail("the model was written to");
        take_back(MODEL, (enum place)at, lent, model_len);
    }
}

/* P1 to P5, with the room exact, longer, and short by one; then the names. */
static void worked_tables(void) {
    static const struct { const char *name; int values[3]; unsigned answer, place; uint8_t nodes[3]; } cases[5] = {
        {"P1", {2, 2, 0}, 0, NONE, {0, 2, 0}},
        {"P2", {2, 0, 0}, 11, 1, {0, 2, 0}},
        {"P3", {0, 2, 0}, 13, 1, {0, 2, 0}},
        {"P4", {0, 0, 0}, 0, NONE, {0, 2, 0}},
        {"P5", {1, 0, 0}, 10, 0, {0, 2, 0}},
    };
    for (int i = 0; i < 5; i++) {
        uint8_t table[W_TABLE];
        w_table(table, cases[i].values[0], cases[i].values[1], cases[i].values[2]);
        for (size_t room = 0; room < 9; room++) {
            struct call c = table_call(W, sizeof W, table, sizeof table, room);
            if (room < 3)
                expect(cases[i].name, &c, 7, 3, NONE, NULL);
            else
                expect(cases[i].name, &c, cases[i].answer, cases[i].place, NONE, cases[i].nodes);
        }
    }
    expect_name(W, sizeof W, 0, "PUSH");
    expect_name(W, sizeof W, 1, "TICK");
    expect_name(W, sizeof W, 2, "RTC");
    static const size_t beyond[] = {3, 4, 255, 256, 65535, 65536, 65537, (size_t)1 << 32, SIZE_MAX};
    for (size_t i = 0; i < sizeof beyond / sizeof *beyond; i++)
        expect_name(W, sizeof W, beyond[i], "");
    for (size_t len = 0; len < sizeof W; len++)
        expect_name(W, len, 0, "");
}

/* P6 to P10, with every mixture of short, exact and longer rooms. */
static void worked_findings(void) {
    static const uint8_t split[15] = {0, 0, 1, 0, 0, 2, 0, 1, 20, 0, 0, 1, 20, 0, 0};
    uint8_t free_tick[sizeof W], narrow[sizeof W], p6[4 + W_TABLE] = {0}, p7[4 + W_TABLE] = {0};
    changed_w(free_tick, W_TICK_DEPENDENCY, 1);
    changed_w(narrow, W_SELECT_CONDITION, 2);
    w_table(p6 + 4, 2, 2, 0);
    w_table(p7 + 4, 2, 2, 2);
    const struct { const char *name; const uint8_t *model, *finding; size_t len; unsigned answer, place; } cases[5] = {
        {"P6", W, p6, sizeof p6, 0, NONE},
        {"P7", W, p7, sizeof p7, 24, 0},
        {"P8", W, LEAF, sizeof LEAF, 23, 4},
        {"P9", free_tick, LEAF, sizeof LEAF, 0, NONE},
        {"P10", narrow, split, sizeof split, 0, NONE},
    };
    for (int i = 0; i < 5; i++)
        for (size_t room = 0; room < 64; room++) {
            size_t nodes = room % 8, symbols = room / 8;
            struct call c = finding_call(cases[i].model, sizeof W, cases[i].finding, cases[i].len, nodes, symbols);
            if (nodes < 3 || symbols < 3)
                expect(cases[i].name, &c, nodes < 3 ? 7 : 8, 3, NONE, NULL);
            else
                expect(cases[i].name, &c, cases[i].answer, cases[i].place, NONE, NULL);
        }
    for (size_t len = 0; len < sizeof split; len++) { /* cut: the node that is missing or cut, or the head */
        unsigned place = len < 7 ? 4 : len < 11 ? 7 : 11;
        struct call c = finding_call(narrow, sizeof narrow, split, len, 3, 3);
        expect("P10 cut", &c, len < 4 ? 21 : 22, len < 4 ? 0 : place, NONE, NULL);
    }
}

/* NULL with the length 0, in each place where bytes are asked for. */
static void nothing_lent(void) {
    static const uint8_t empty_book[36] = {36, 0, 255, 255, 36, 0, 0, 0, 36, 0, 0, 0, 36, 0, 0, 0, 36, 0, 0, 0,
                                           36, 0,  0,   0,  36, 0, 0, 0, 36, 0, 0, 0, 36, 0, 0, 0};
    static const uint8_t empty_table[4] = {4, 0, 0, 0}, head[4] = {0, 0, 1, 0};
    uint8_t table[W_TABLE];
    w_table(table, 2, 2, 0);
    struct call c = table_call(NULL, 0, NULL, 0, 0);
    expect("NULL everywhere", &c, 1, 0, NONE, NULL);
    c = table_call(NULL, 0, table, sizeof table, 3);
    expect("NULL model", &c, 1, 0, NONE, NULL);
    c = table_call(W, sizeof W, NULL, 0, 3);
    expect("NULL table", &c, 5, 0, NONE, NULL);
    c = table_call(W, sizeof W, table, sizeof table, 0);
    expect("NULL room", &c, 7, 3, NONE, NULL);
    c = table_call(empty_book, 36, empty_table, 4, 0);
    expect("no symbols, 36 bytes", &c, 0, NONE, NONE, NULL);
    c = table_call(empty_book, 35, empty_table, 4, 0);
    expect("35 bytes", &c, 1, 0, NONE, NULL);
    c = finding_call(NULL, 0, NULL, 0, 0, 0);
    expect("finding, NULL everywhere", &c, 1, 0, NONE, NULL);
    c = finding_call(W, sizeof W, NULL, 0, 3, 3);
    expect("NULL finding", &c, 21, 0, NONE, NULL);
    c = finding_call(W, sizeof W, head, 4, 0, 0);
    expect("finding, NULL rooms", &c, 7, 3, NONE, NULL);
    c = finding_call(W, sizeof W, head, 4, 3, 0);
    expect("finding, NULL symbol work", &c, 8, 3, NONE, NULL);
    c = finding_call(W, sizeof W, head, 4, 3, 3);
    expect("finding without a tree", &c, 22, 4, NONE, NULL);
    expect_name(NULL, 0, 0, "");
    expect_name(empty_book, 36, 0, "");
    current = "header";
    checks += 4;
    if (plaitcrumb_nodes(NULL, 0) || plaitcrumb_symbols(NULL, 0))
        fail("an empty model has nodes or symbols");
    if (plaitcrumb_nodes(W, sizeof W) != 3 || plaitcrumb_symbols(W, sizeof W) != 3 || plaitcrumb_nodes(W, 35))
        fail("W does not have 3 nodes and 3 symbols");
    if (plaitcrumb_symbol((uint64_t)11 << 32 | 7 << 16 | 9) != 7 || plaitcrumb_symbol((uint64_t)15 << 32 | 7 << 16 | 9) != 9 ||
        plaitcrumb_symbol((uint64_t)17 << 32 | 7 << 16 | 9) != PLAITCRUMB_NO_PLACE || plaitcrumb_symbol(0) != PLAITCRUMB_NO_PLACE)
        fail("the symbol that a result blames");
    if (PLAITCRUMB_MOST_NODES != (LONGEST - HEAD) / 6 || PLAITCRUMB_MOST_SYMBOLS != (LONGEST - HEAD) / 8)
        fail("the rooms that are long enough for every model");
}

/* W with one number changed: where, to what, and what that draws. */
static void bad_models(void) {
    static const struct { const char *name; unsigned at, to, answer, place, second; } cases[] = {
        {"total too low", 0, 94, 1, 0, NONE},
        {"total too high", 0, 96, 1, 0, NONE},
        {"section 1 starts late", 4, 37, 2, 1, NONE},
        {"section 2 starts early", 8, 59, 2, 2, NONE},
        {"a node too many", 10, 4, 2, 3, NONE},
        {"section 8 ends early", 34, 10, 2, 8, NONE},
        {"section 8 ends late", 34, 12, 2, 8, NONE},
        {"a type of 5", 36, 5, 3, 1, 0},
        {"a name of 0 bytes", 37, 0, 3, 1, 0},
        {"a name past the texts", 54, 9, 3, 1, 2},
        {"a name repeated", 53, 255, 3, 1, 2},
        {"a prompt without a node", 48, 3, 3, 1, 1},
        {"an op of 10", 72, 10, 3, 2, 2},
        {"a constant of 3", 68, 3, 3, 2, 1},
        {"a node's zero byte", 61, 1, 3, 2, 0},
        {"a node of no symbol", 74, 3, 3, 2, 2},
        {"a select of no symbol", 78, 3, 3, 4, 0},
        {"modules symbol 3", 2, 3, 4, 3, NONE},
    };
    uint8_t table[W_TABLE];
    w_table(table, 2, 2, 0);
    for (size_t i = 0; i < sizeof cases / sizeof *cases; i++) {
        uint8_t model[sizeof W];
        changed_w(model, cases[i].at, cases[i].to);
        if (cases[i].at == 2)
            model[3] = 0;
        struct call c = table_call(model, sizeof model, table, sizeof table, 3);
        expect(cases[i].name, &c, cases[i].answer, cases[i].place, cases[i].second, NULL);
        c = finding_call(model, sizeof model, LEAF, sizeof LEAF, 3, 3);
        expect(cases[i].name, &c, cases[i].answer, cases[i].place, cases[i].second, NULL);
        expect_name(model, sizeof model, 0, "");
    }
    for (size_t len = 0; len < sizeof W; len++) {
        struct call c = table_call(W, len, table, sizeof table, 3);
        expect("model cut", &c, 1, 0, NONE, NULL);
        c = finding_call(W, len, table, sizeof table, 3, 3);
        expect("model cut, finding", &c, 1, 0, NONE, NULL);
    }
}

/* W cut: its last name, without a look at the book, is cut with it, and gone with its record. */
static void cut_names(void) {
    current = "a name cut";
    for (size_t len = 0; len <= sizeof W; len++)
        for (int at = 0; at < PLACES; at++) {
            uint8_t *lent = lend(MODEL, (enum place)at, W, len);
            uint64_t r = plaitcrumb_name_in(lent, len, 2), due = len > 92 ? (uint64_t)92 << 32 | (len - 92) : 0;
            checks++;
            if (r != due)
                fail("of %zu bytes: %#lx, should be %#lx", len, (unsigned long)r, (unsigned long)due);
            take_back(MODEL, (enum place)at, lent, len);
        }
}

/* Tables for W that cannot be read. */
static void bad_tables(void) {
    static const struct { const char *name; unsigned at, to, answer, place; } cases[] = {
        {"total too low", 0, 18, 5, 0},     {"total too high", 0, 20, 5, 0}, {"a symbol less", 2, 2, 5, 0},
        {"a symbol more", 2, 4, 5, 0},      {"a kind of 4", 4, 4, 6, 0},     {"a length of 2", 9, 2, 6, 1},
        {"a start too low", 10, 16, 6, 1},  {"a start too high", 14, 19, 6, 2}, {"a value of 3", 18, 3, 6, 2},
        {"a body past the total", 13, 2, 6, 2},
    };
    uint8_t table[W_TABLE];
    for (size_t i = 0; i < sizeof cases / sizeof *cases; i++) {
        uint8_t witness[4 + W_TABLE] = {0};
        w_table(table, 2, 2, 0);
        table[cases[i].at] = (uint8_t)cases[i].to;
        struct call c = table_call(W, sizeof W, table, sizeof table, 3);
        expect(cases[i].name, &c, cases[i].answer, cases[i].place, NONE, NULL);
        memcpy(witness + 4, table, sizeof table);
        c = finding_call(W, sizeof W, witness, sizeof witness, 4, 4);
        expect(cases[i].name, &c, cases[i].answer, cases[i].place, NONE, NULL);
    }
    w_table(table, 2, 2, 0);
    for (size_t len = 0; len < sizeof table; len++) {
        struct call c = table_call(W, sizeof W, table, len, 3);
        expect("table cut", &c, 5, 0, NONE, NULL);
    }
}

/* Slices longer than a total can say. */
static void long_slices(void) {
    static const size_t lengths[] = {65535, 65536, 65536 + 95, 131072};
    uint8_t *bytes = calloc(1, 131072), table[W_TABLE], free_tick[sizeof W];
    if (!bytes)
        exit(2);
    w_table(table, 2, 2, 0);
    changed_w(free_tick, W_TICK_DEPENDENCY, 1);
    for (size_t i = 0; i < sizeof lengths / sizeof *lengths; i++) {
        memcpy(bytes, W, sizeof W); /* W and zeroes: its total is 95 */
        struct call c = table_call(bytes, lengths[i], table, sizeof table, 3);
        expect("long model", &c, 1, 0, NONE, NULL);
        expect_name(bytes, lengths[i], 0, "");
        memcpy(bytes, table, sizeof table);
        c = table_call(W, sizeof W, bytes, lengths[i], 3);
        expect("long table", &c, 5, 0, NONE, NULL);
        memcpy(bytes, LEAF, sizeof LEAF);
        c = finding_call(free_tick, sizeof W, bytes, lengths[i], 3, 3);
        expect("long finding", &c, lengths[i] > LONGEST ? 21 : 22, lengths[i] > LONGEST ? 0 : 8, NONE, NULL);
    }
    free(bytes);
}

/* What every result of any bytes keeps to, and that it is the same in all places. */
static void any_bytes(const char *name, const struct call *c) {
    static struct seen first, next;
    size_t nodes = plaitcrumb_nodes(c->model, c->model_len), symbols = plaitcrumb_symbols(c->model, c->model_len);
    current = name;
    run(c, EXACT, &first);
    for (int at = 1; at < PLACES; at++) {
        run(c, (enum place)at, &next);
        if (next.result != first.result || memcmp(next.nodes, first.nodes, c->node_len) ||
            memcmp(next.symbols, first.symbols, c->symbol_len))
            fail("another result %s", place_words[at]);
    }
    for (int at = 0; !c->finding && at < PLACES; at++)
        in_turn(c, (enum place)at, &first);
    unsigned answer = plaitcrumb_answer(first.result), place = plaitcrumb_place(first.result);
    if (first.result >> 32 > 24 || answer == 9 || answer == 19 || answer == 20 ||
        (!c->finding && (answer == 8 || answer > 18)))
        fail("answered %u", answer);
    if (answer == 0 && first.result != 0xffffffffu)
        fail("answered 0 with a place");
    if ((answer == 7 && (place != nodes || c->node_len >= nodes)) ||
        (answer == 8 && (place != symbols || c->symbol_len >= symbols)))
        fail("answered %u at %u with rooms of %zu and %zu", answer, place, c->node_len, c->symbol_len);
    if (refused(c, answer))
        nodes = symbols = 0;
    else if (c->node_len < nodes || (c->finding && c->symbol_len < symbols))
        fail("answered %u with a room too short", answer);
    for (size_t i = 0; i < nodes && i < c->node_len; i++)
        if (first.nodes[i] > (c->finding ? 0 : 2)) {
            fail("byte %zu of the node work is %u", i, first.nodes[i]);
            break;
        }
    same_room("node", first.nodes, c->node_len, first.nodes, nodes);
    same_room("symbol", first.symbols, c->symbol_len, zeroes, c->finding ? symbols : 0);
    for (int at = 0; at < PLACES; at++) {
        uint8_t *lent = lend(MODEL, (enum place)at, c->model, c->model_len);
        size_t index = dice(5);
        uint64_t r = plaitcrumb_name(lent, c->model_len, index);
        size_t start = plaitcrumb_name_start(r), length = plaitcrumb_name_length(r);
        checks++;
        if (length > 64 || start > c->model_len || length > c->model_len - start || (length && answer >= 1 && answer <= 4))
            fail("a name of %zu bytes from %zu, where a check answers %u", length, start, answer);
        name_in_turn(lent, c->model_len, index, r);
        take_back(MODEL, (enum place)at, lent, c->model_len);
    }
}

/* Changes so many bytes, many of them to small numbers. */
static void scatter(uint8_t *bytes, size_t len, unsigned changes) {
    for (unsigned i = 0; len && i < changes; i++)
        bytes[dice((unsigned)len)] = (uint8_t)(dice(2) ? dice(256) : dice(11));
}

/* Random bytes: none of it ordered, with the right total, with the right chain, and W and its tables with changes. */
static void random_bytes(int rounds) {
    static uint8_t model[400], bytes[400];
    for (int round = 0; round < rounds; round++) {
        size_t model_len = dice(200), bytes_len = dice(60);
        for (size_t i = 0; i < sizeof model; i++)
            model[i] = (uint8_t)(round % 3 ? dice(4) : dice(256));
        for (size_t i = 0; i < sizeof bytes; i++)
            bytes[i] = (uint8_t)(round % 3 ? dice(4) : dice(256));
        switch (round % 5) {
        case 0:
            break;
        case 1:
            model[0] = (uint8_t)model_len;
            model[1] = 0;
            break;
        case 2: {
            unsigned counts[8];
            struct writer w = {model, 0};
            for (int i = 0; i < 8; i++)
                counts[i] = dice(4);
            counts[7] = 20;
            put_contents(&w, dice(4) ? NONE : dice(4), counts);
            model_len = model[0] | (size_t)model[1] << 8;
            memset(model + model_len - 20, 'A', 20);
            scatter(model + model_len - 20, 20, 12);
            break;
        }
        default:
            model_len = sizeof W;
            memcpy(model, W, sizeof W);
            scatter(model, model_len, dice(3));
            bytes_len = W_TABLE;
            w_table(bytes, (int)dice(3), (int)dice(3), (int)dice(3));
            scatter(bytes, bytes_len, dice(3));
            if (round % 2) {
                memmove(bytes + 4, bytes, bytes_len);
                memset(bytes, 0, 4);
                bytes_len += 4;
                if (dice(3) == 0) {
                    bytes[2] = 1;
                    memcpy(bytes + 4, "\0\2\0\1\24\0\0\1\24\0\0", 11);
                    scatter(bytes + 4, 11, dice(3));
                    bytes_len = 15;
                }
            }
        }
        struct call c = {round % 2, model, model_len, bytes, bytes_len, dice(8), dice(8)};
        any_bytes("random bytes", &c);
    }
}

/* A book of 65,535 bytes with every section: kept; its room short by one; then one byte of it or of its table changed. */
static void full(int rounds) {
    uint8_t *model = malloc(LONGEST), *table = malloc(LONGEST), *finding = malloc(LONGEST);
    static struct seen seen;
    if (!model || !table || !finding)
        exit(2);
    size_t model_len = full_book(model), table_len = full_table(table), nodes = plaitcrumb_nodes(model, model_len);
    struct call c = table_call(model, model_len, table, table_len, nodes);
    current = "full book";
    run(&c, EXACT, &seen);
    expect("full book", &c, 0, NONE, NONE, seen.nodes);
    any_bytes("full book", &c);
    c.node_len = nodes - 1;
    expect("full book, room short by one", &c, 7, (unsigned)nodes, NONE, NULL);
    expect_name(model, model_len, FULL_SYMBOLS - 1, "CFX_");
    expect_name(model, model_len, FULL_SYMBOLS, "");
    memset(finding, 0, 4);
    memcpy(finding + 4, table, table_len);
    c = finding_call(model, model_len, finding, table_len + 4, nodes, FULL_SYMBOLS);
    expect("full book, witness", &c, 24, 0, NONE, NULL);
    c = finding_call(model, model_len, finding, deep_clearance(finding, 64, 6, 3, 20, 0), nodes + 1, FULL_SYMBOLS + 1);
    expect("full book, 64 splits", &c, 0, NONE, NONE, NULL);
    c = finding_call(model, model_len, finding, deep_clearance(finding, 65, 6, 3, 20, 0), nodes, FULL_SYMBOLS);
    expect("full book, 65 splits", &c, 22, 4 + 64 * 11, NONE, NULL);
    c = finding_call(model, model_len, finding, deep_clearance(finding, 64, 6, 3, 12, 6), nodes, FULL_SYMBOLS);
    expect("full book, the deepest leaf open", &c, 23, 4 + 64 * 11, NONE, NULL);
    for (int round = 0; round < rounds; round++) {
        uint8_t *bytes = round % 2 ? model : table;
        unsigned at = dice((unsigned)(round % 2 ? model_len : table_len));
        uint8_t was = bytes[at];
        bytes[at] = (uint8_t)dice(256);
        c = table_call(model, model_len, table, table_len, nodes);
        any_bytes("full book, one byte changed", &c);
        bytes[at] = was;
    }
    free(model);
    free(table);
    free(finding);
}

/* Calls from several threads at once, each with a room of its own, on the same model. */
static void *one_thread(void *answers) {
    uint64_t wrong = 0;
    for (int i = 0; i < 3000; i++) {
        uint8_t table[W_TABLE], nodes[3], symbols[3];
        w_table(table, 2, i % 2 ? 2 : 0, 0);
        uint64_t due = i % 2 ? 0xffffffffu : (uint64_t)11 << 32 | 1 << 16 | NONE;
        wrong += plaitcrumb_check_table(W, sizeof W, table, sizeof table, nodes, sizeof nodes) != due;
        wrong += plaitcrumb_check_table_in(W, sizeof W, table, sizeof table, nodes, sizeof nodes) != due;
        wrong += plaitcrumb_name_length(plaitcrumb_name(W, sizeof W, 1 + (size_t)i % 2)) != (i % 2 ? 3u : 4u);
        due = (uint64_t)23 << 32 | 4 << 16 | NONE;
        wrong += plaitcrumb_check_finding(W, sizeof W, LEAF, sizeof LEAF, nodes, sizeof nodes, symbols, sizeof symbols) != due;
    }
    *(uint64_t *)answers = wrong;
    return NULL;
}
static void threads(void) {
    pthread_t thread[4];
    uint64_t wrong[4] = {0};
    current = "threads";
    for (int i = 0; i < 4; i++)
        if (pthread_create(&thread[i], NULL, one_thread, &wrong[i]))
            exit(2);
    for (int i = 0; i < 4; i++) {
        pthread_join(thread[i], NULL);
        checks += 12000;
        if (wrong[i])
            fail("%lu wrong answers in thread %d", (unsigned long)wrong[i], i);
    }
}

int main(int argc, char **argv) {
    int rounds = argc > 1 ? atoi(argv[1]) : 30000;
    make_arenas();
    worked_tables();
    worked_findings();
    nothing_lent();
    bad_models();
    cut_names();
    bad_tables();
    long_slices();
    full(rounds / 200);
    random_bytes(rounds);
    threads();
    printf("host: %ld checks, %ld failed\n", checks, failed);
    return failed != 0;
}
