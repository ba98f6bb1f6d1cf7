/*
 * plaitcrumb.h - checks on encoded Kconfig models, from C
 *
 *     cc host.c -Iinclude build/libplaitcrumb.a                in the repository
 *     cc host.c $(pkg-config --cflags --libs plaitcrumb)       once it is installed
 *
 * There are six calls. Three look at the model first:
 *
 *     plaitcrumb_check_table      is this configuration table valid in this model?
 *     plaitcrumb_check_finding    does this finding about one select hold in this model?
 *     plaitcrumb_name             which bytes of the model spell the name of this symbol?
 *
 * And three are for many tables of one model, which is then looked at once:
 *
 *     plaitcrumb_check_book       is this model well formed?
 *     plaitcrumb_check_table_in   is this table valid in this model, which is well formed?
 *     plaitcrumb_name_in          which bytes of this model, which is well formed, spell this name?
 *
 * WORDS
 *
 *   model     an encoded Kconfig model, "the book": 36 to 65,535 bytes.
 *   table     a configuration, one value a symbol: at most 65,535 bytes.
 *   finding   a claim about one select of the model, 4 to 65,535 bytes. A witness claims that the select is
 *             unmet in the table it carries, a clearance that the select is met in every valid table.
 *   room      bytes that the caller lends for the length of one call. node_work needs one byte for each node of
 *             the model, symbol_work one for each symbol.
 *
 * The formats are described in docs/FORMAT.md, the answers for people at the desk in docs/ANSWERS.md.
 *
 * WHAT HOLDS FOR EVERY CALL
 *
 *   - Any bytes may be handed in, of any length. What is malformed is refused with a number; only
 *     plaitcrumb_check_table_in and plaitcrumb_name_in leave the faults of a model to plaitcrumb_check_book.
 *   - Bytes come as a pointer and a length. NULL with the length 0 is an empty slice; NULL with any other
 *     length is the caller's mistake.
 *   - Nothing is read outside of the slices, and nothing is written outside of the rooms. Nothing needs to be
 *     aligned.
 *   - A room must not overlap a model, a table, a finding or the other room. The model and the table or
 *     finding are only read, so they may overlap each other.
 *   - No heap, no global state, no input or output, and no pointer is kept. So the calls may run in several
 *     threads at once, each with rooms of its own, on the same model if nobody writes to it meanwhile.
 *   - Little stack: under 12 KiB for a clearance, whose tree is walked up to 64 deep, and under 1 KiB for
 *     everything else. tests/host/stack.c measures it.
 *   - The same bytes handed in give the same result. What stood in the rooms before plays no part.
 *
 * THE RESULT OF A CHECK
 *
 * One number, answer * 2^32 + place * 2^16 + second. plaitcrumb_answer, plaitcrumb_place and plaitcrumb_second
 * take it apart. Places count from 0, except sections of the model, which count from 1. 65535 stands for "no
 * place". The first fault in the order of the check is the one that is answered.
 *
 *   answer                                                             place             second
 *
 *    0  the table is valid, the finding is accepted, or the model is   65535             65535
 *       well formed
 *
 *       The model is refused:
 *    1  shorter than 36 bytes, or not as long as its own total         0                 65535
 *    2  a section does not start where the one before it ends          section, 1 to 8   65535
 *       (at 8 also: the last section does not end at the total)
 *    3  a malformed record, the first of all; at section 6 and the     section, 1 to 7   record
 *       number of choices: the choices leave members over
 *    4  the modules symbol is not a boolean symbol of the model        bytes 2-3 as      65535
 *                                                                      they are
 *
 *       The table is refused, or the one in a witness:
 *    5  shorter than 4 bytes, a wrong total or symbol count, contents  0                 65535
 *       cut, or bytes left behind the last body
 *    6  a malformed entry, or a body not where the former one ends     symbol            65535
 *
 *       A room is too short:
 *    7  node_work                                                      bytes needed      65535
 *    8  symbol_work                                                    bytes needed      65535
 *
 *       The table breaks a rule:
 *   10  type: the value does not fit the symbol's type                 symbol            65535
 *   11  lower: below what the selects on it force                      symbol            65535
 *   12  upper: above its prompt, though that is above n and not        symbol            65535
 *       below what the selects force
 *   13  default: no prompt, and the value is not the default, raised   symbol            65535
 *       by what the selects force
 *   14  range: outside a range that applies, or it or a bound of the   symbol            range
 *       range is empty
 *   15  one: a choice has a member at y and another one above n        choice            symbol of the other
 *   16  kind: a boolean choice has a member at m. No table gets this   choice            symbol
 *       far, for 10 comes first
 *   17  mandatory: a choice that must have a member above n has none   choice            65535
 *   18  modules: the modules symbol is n, and this symbol is m         symbol            65535
 *
 *       The finding is refused:
 *   21  its length, or its first four bytes                            0                 65535
 *   22  the tree is malformed or cut there, or bytes are left over     offset in it      65535
 *   23  a leaf that is not closed                                      offset in it      65535
 *   24  the witness's table is valid, but the select is met in it      select            65535
 *
 * 9, 19 and 20 are never answered.
 */
#ifndef PLAITCRUMB_H
#define PLAITCRUMB_H

#include <stddef.h>
#include <stdint.h>

#ifdef __cplusplus
extern "C" {
#endif

/* "No place" in a result. It is never the number of a symbol. */
#define PLAITCRUMB_NO_PLACE 65535u

/* Rooms of this many bytes are long enough for every model: for a host that sets them aside once. */
#define PLAITCRUMB_MOST_NODES 10916u
#define PLAITCRUMB_MOST_SYMBOLS 8187u

/*
 * Checks one configuration table against one model.
 *
 *   model, model_len           the model
 *   table, table_len           the table
 *   node_work, node_work_len   the room, at least plaitcrumb_nodes(model, model_len) bytes
 *
 * Answers 0, 1 to 7 and 10 to 18, in the order 1, 2, 3, 4, then 5 and 6, then 7, then the rules: 10 for every
 * symbol, 11 to 14 symbol by symbol, 15 to 17 choice by choice, 18.
 *
 * Afterwards:
 *   refused with 1 to 7   node_work is as it was.
 *   any other answer      the first bytes of node_work, one a node, are the nodes' values in this table:
 *                         0 for n, 1 for m, 2 for y. The rest of node_work is as it was.
 */
uint64_t plaitcrumb_check_table(const uint8_t *model, size_t model_len,
                                const uint8_t *table, size_t table_len,
                                uint8_t *node_work, size_t node_work_len);

/*
 * Checks one finding about one select of a model.
 *
 *   model, model_len               the model
 *   finding, finding_len           the finding: the select in two bytes, lower first; 0 for a witness or 1 for
 *                                  a clearance; 0; then the witness's table or the clearance's tree
 *   node_work, node_work_len       a room, at least plaitcrumb_nodes(model, model_len) bytes
 *   symbol_work, symbol_work_len   a room, at least plaitcrumb_symbols(model, model_len) bytes
 *
 * Answers 0, 1 to 8, 10 to 18 and 21 to 24, in the order 1, 2, 3, 4, then 21, 7, 8, then what the body draws:
 * a witness 5, 6, 10 to 18 or 24, a clearance 22 or 23, whichever stands earlier in the finding.
 *
 * Afterwards:
 *   refused with 1 to 4, 21, 7 or 8   both rooms are as they were.
 *   any other answer                  the first bytes of node_work, one a node, and of symbol_work, one a
 *                                     symbol, are zero. The rest of both is as it was.
 */
uint64_t plaitcrumb_check_finding(const uint8_t *model, size_t model_len,
                                  const uint8_t *finding, size_t finding_len,
                                  uint8_t *node_work, size_t node_work_len,
                                  uint8_t *symbol_work, size_t symbol_work_len);

/*
 * Finds the name of a symbol: a part of the model's own bytes, handed back as start * 2^32 + length.
 *
 *   model, model_len   the model
 *   index              the symbol's number, from 0; any number may be asked for
 *
 * The name is the 1 to 64 bytes from model + plaitcrumb_name_start(r), without a zero behind it:
 *
 *     printf("%.*s\n", (int)plaitcrumb_name_length(r), (const char *)model + plaitcrumb_name_start(r));
 *
 * The length is 0 where there is no such symbol, and for a model that a check would refuse with 1 to 4.
 */
uint64_t plaitcrumb_name(const uint8_t *model, size_t model_len, size_t index);

/*
 * Checks one model by itself. Half of a table check and more is this, so for many tables of one model it is
 * done once, and then each table is checked by plaitcrumb_check_table_in:
 *
 *     uint64_t r = plaitcrumb_check_book(model, model_len);
 *     if (plaitcrumb_answer(r) == 0)
 *         r = plaitcrumb_check_table_in(model, model_len, table, table_len, node_work, node_work_len);
 *
 * The two in turn are plaitcrumb_check_table: r and every byte of node_work are what it would have left.
 *
 *   model, model_len   the model
 *
 * Answers 0 and 1 to 4.
 */
uint64_t plaitcrumb_check_book(const uint8_t *model, size_t model_len);

/*
 * Checks one configuration table against a model for which plaitcrumb_check_book answered 0.
 *
 *   model, model_len           the model
 *   table, table_len           the table
 *   node_work, node_work_len   the room, at least plaitcrumb_nodes(model, model_len) bytes
 *
 * Answers 0, 5 to 7 and 10 to 18, in the order of plaitcrumb_check_table.
 *
 * Afterwards:
 *   refused with 5 to 7   node_work is as it was.
 *   any other answer      the first bytes of node_work, one a node, are the nodes' values in this table:
 *                         0 for n, 1 for m, 2 for y. The rest of node_work is as it was.
 *
 * That 0 means a valid table, and 10 to 18 the first rule that it breaks, is promised only where
 * plaitcrumb_check_book answered 0 for the same bytes of the model. On any others the call still ends, reads
 * nothing outside of the slices, writes at most the first bytes of node_work, as many as the number in bytes 10
 * and 11 of the model, and answers one of these numbers; but the answer means nothing. It may also take seconds
 * there, which it never does on a well-formed model.
 */
uint64_t plaitcrumb_check_table_in(const uint8_t *model, size_t model_len,
                                   const uint8_t *table, size_t table_len,
                                   uint8_t *node_work, size_t node_work_len);

/*
 * Finds the name of a symbol in a model for which plaitcrumb_check_book answered 0: the result is that of
 * plaitcrumb_name, without a look at the rest of the model.
 *
 *   model, model_len   the model
 *   index              the symbol's number, from 0; any number may be asked for
 *
 * The length is 0 where there is no such symbol. On any other bytes the part means nothing and may hold any
 * bytes, but it always lies in the model: the start and the length together are at most model_len. It has at
 * most 255 bytes.
 */
uint64_t plaitcrumb_name_in(const uint8_t *model, size_t model_len, size_t index);

/* The three parts of a check's result. */
static inline unsigned plaitcrumb_answer(uint64_t result) {
    return (unsigned)(result >> 32);
}
static inline unsigned plaitcrumb_place(uint64_t result) {
    return (unsigned)(result >> 16 & 65535u);
}
static inline unsigned plaitcrumb_second(uint64_t result) {
    return (unsigned)(result & 65535u);
}

/* The symbol that a check's result blames, for a name call; PLAITCRUMB_NO_PLACE if it blames none. */
static inline unsigned plaitcrumb_symbol(uint64_t result) {
    unsigned answer = plaitcrumb_answer(result);
    if ((answer >= 10 && answer <= 14) || answer == 18)
        return plaitcrumb_place(result);
    return answer == 15 || answer == 16 ? plaitcrumb_second(result) : PLAITCRUMB_NO_PLACE;
}

/* The two parts of a name: where it starts in the model, and how many bytes it has. */
static inline size_t plaitcrumb_name_start(uint64_t name) {
    return (size_t)(name >> 32);
}
static inline size_t plaitcrumb_name_length(uint64_t name) {
    return (size_t)(name & 4294967295u);
}

/*
 * How many nodes and how many symbols a model says it has: the bytes that node_work and symbol_work need. They
 * read the contents at the model's front and check nothing, so a malformed model may say any number up to
 * 65,535; a model under 36 bytes says 0.
 */
static inline size_t plaitcrumb_nodes(const uint8_t *model, size_t model_len) {
    return model_len < 36 ? 0 : (size_t)(model[10] | model[11] << 8);
}
static inline size_t plaitcrumb_symbols(const uint8_t *model, size_t model_len) {
    return model_len < 36 ? 0 : (size_t)(model[6] | model[7] << 8);
}

#ifdef __cplusplus
}
#endif

#endif
