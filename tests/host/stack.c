/*
 * How much stack each function of the archive uses: a call on a painted stack of its own, and how deep the paint is
 * gone. Ends non-zero unless a clearance uses under 12,288 bytes, and everything else under 1,024.
 */
#define _GNU_SOURCE
#include "books.h"
#include "plaitcrumb.h"
#include <ucontext.h>

enum { STACK = 1 << 20, TABLE_LIMIT = 1024, FINDING_LIMIT = 12288 };

static uint8_t stack[STACK] __attribute__((aligned(64)));
static uint8_t full[LONGEST], twice[LONGEST], table_of_full[LONGEST], deep[LONGEST], finding[LONGEST], nodes[LONGEST], symbols[LONGEST];
static uint8_t table_of_w[W_TABLE];
static ucontext_t here, there;

/* What the measured call is given. The name calls take the length of the bytes for the symbol's number. */
static const uint8_t *model, *bytes;
static size_t model_len, bytes_len;
static volatile uint64_t result;

static void no_call(void) { result = 0; }
static void table_call(void) {
    result = plaitcrumb_check_table(model, model_len, bytes, bytes_len, nodes, sizeof nodes);
}
static void name_call(void) { result = plaitcrumb_name(model, model_len, bytes_len); }
static void book_call(void) { result = plaitcrumb_check_book(model, model_len); }
static void table_in_call(void) {
    result = plaitcrumb_check_table_in(model, model_len, bytes, bytes_len, nodes, sizeof nodes);
}
static void name_in_call(void) { result = plaitcrumb_name_in(model, model_len, bytes_len); }
static void finding_call(void) {
    result = plaitcrumb_check_finding(model, model_len, bytes, bytes_len, nodes, sizeof nodes, symbols, sizeof symbols);
}

/* Runs a call on the stack painted with this byte, and gives the bytes of it that are no longer paint. */
static size_t used(void (*call)(void), int paint) {
    size_t kept = 0;
    memset(stack, paint, sizeof stack);
    getcontext(&there);
    there.uc_stack.ss_sp = stack;
    there.uc_stack.ss_size = sizeof stack;
    there.uc_link = &here;
    makecontext(&there, call, 0);
    swapcontext(&here, &there);
    while (kept < sizeof stack && stack[kept] == paint)
        kept++;
    return sizeof stack - kept;
}

/* What a call uses beyond an empty one. It is made twice before, so that nothing of it is linked or paged in late. */
static size_t measured(void (*call)(void)) {
    size_t empty = used(no_call, 0xa5), one, other;
    call();
    used(call, 0xa5);
    one = used(call, 0xa5);
    other = used(call, 0x3c);
    return (one > other ? one : other) - empty;
}

/* Says what the next calls are given. */
static void set_input(const uint8_t *m, size_t ml, const uint8_t *b, size_t bl) {
    model = m;
    model_len = ml;
    bytes = b;
    bytes_len = bl;
}

/* The largest use since the last `within`. */
static size_t most;

/* Whether every call so far gave the answer that was due: another one may have ended early, with little stack. */
static int answered = 1;

/* Measures a call that gives this answer, and prints what it used. A name has none. */
static void show(const char *what, void (*call)(void), unsigned due) {
    size_t size = measured(call);
    unsigned answer = call == name_call || call == name_in_call ? 0 : (unsigned)plaitcrumb_answer(result);
    if (size > most)
        most = size;
    printf("  %-52s answer %2u  %6zu bytes%s\n", what, answer, size, answer == due ? "" : ": ANOTHER ANSWER WAS DUE");
    answered &= answer == due;
}

/* Ends a function: its largest use against its limit. */
static int within(const char *function, size_t limit) {
    int good = most < limit;
    printf("stack: %s: %zu bytes at most, limit under %zu%s\n", function, most, limit, good ? "" : ": OVER THE LIMIT");
    most = 0;
    return good;
}

int main(void) {
    size_t full_len = full_book(full), full_table_len = full_table(table_of_full);
    int good = 1;
    w_table(table_of_w, 2, 2, 0);

    set_input(W, sizeof W, table_of_w, W_TABLE);
    show("table check, worked model", table_call, 0);
    set_input(full, full_len, table_of_full, full_table_len);
    show("table check, full book", table_call, 0);
    memcpy(twice, full, full_len);
    memcpy(twice + 36 + 8 * (FULL_SYMBOLS - 1) + 1, twice + 36 + 1, 3); /* the last name is the first */
    set_input(twice, full_len, table_of_full, full_table_len);
    show("table check, full book, a name twice", table_call, 3);
    good &= within("plaitcrumb_check_table", TABLE_LIMIT);

    set_input(W, sizeof W, NULL, 2);
    show("name, worked model", name_call, 0);
    set_input(full, full_len, NULL, FULL_SYMBOLS - 1);
    show("name, full book", name_call, 0);
    set_input(twice, full_len, NULL, FULL_SYMBOLS - 1);
    show("name, full book, a name twice", name_call, 0);
    good &= within("plaitcrumb_name", TABLE_LIMIT);

    set_input(full, full_len, NULL, 0);
    show("book, full book", book_call, 0);
    set_input(twice, full_len, NULL, 0);
    show("book, full book, a name twice", book_call, 3);
    good &= within("plaitcrumb_check_book", TABLE_LIMIT);

    set_input(W, sizeof W, table_of_w, W_TABLE);
    show("table after the book, worked model", table_in_call, 0);
    set_input(full, full_len, table_of_full, full_table_len);
    show("table after the book, full book", table_in_call, 0);
    good &= within("plaitcrumb_check_table_in", TABLE_LIMIT);

    set_input(full, full_len, NULL, FULL_SYMBOLS - 1);
    show("name after the book, full book", name_in_call, 0);
    good &= within("plaitcrumb_name_in", TABLE_LIMIT);

    memcpy(finding + 4, table_of_w, W_TABLE);
    set_input(W, sizeof W, finding, 4 + W_TABLE);
    show("finding check, worked model, witness", finding_call, 0);
    memcpy(finding + 4, table_of_full, full_table_len);
    set_input(full, full_len, finding, 4 + full_table_len);
    show("finding check, full book, witness", finding_call, 24);
    set_input(twice, full_len, finding, 4 + full_table_len);
    show("finding check, full book, a name twice", finding_call, 3);
    good &= within("plaitcrumb_check_finding, a witness", TABLE_LIMIT);

    /* A leaf's rule and place, and whether it is closed. */
    static const unsigned leaves[7][3] = {{20, 0, 0},  {11, 7, 23}, {12, 9, 23}, {13, 7, 0},
                                          {18, 6, 23}, {15, 0, 23}, {17, 0, 23}};
    size_t deep_len = small_deep_book(deep, 0);
    set_input(deep, deep_len, finding, deep_clearance(finding, 64, 0, 2, 20, 0));
    show("finding check, 64 splits on a small book", finding_call, 0);
    for (unsigned nots = 1; nots <= 64; nots *= 2) {
        char what[60];
        deep_len = small_deep_book(deep, nots);
        set_input(deep, deep_len, finding, deep_clearance(finding, 64, 0, 2, 20, 0));
        sprintf(what, "finding check, 64 splits, %u nots over an equality", nots);
        show(what, finding_call, 0);
    }
    for (int i = 0; i < 7; i++) {
        char what[60];
        set_input(full, full_len, finding, deep_clearance(finding, 64, 6, 3, leaves[i][0], leaves[i][1]));
        sprintf(what, "finding check, full book, 64 splits to a leaf %u", leaves[i][0]);
        show(what, finding_call, leaves[i][2]);
    }
    good &= within("plaitcrumb_check_finding, a clearance", FINDING_LIMIT);
    return !(good & answered);
}
