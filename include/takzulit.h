/*
 * Takzulit: reads and writes Elements transactions as document 01 lays them out. What is said of each function here in words, the function of
 * crates/takzulit/src/lib.rt promises, and is proved to keep, for whatever stands in the arrays, tables and bytes that are lent; that the two
 * say the same is read and run, not proved. That the declarations and constants below are those of the exported functions is checked by
 * .ci/exports. No function allocates, keeps a pointer or stops the program, and each returns. The archive is for x86-64 Linux;
 * `.ci/arm-archive` makes one for aarch64 of the same crates.
 *
 * What the caller owes, and no function can test:
 *   - each pointer points to as many numbers as its length says (or as its array has), is aligned for them, and is not null, even where
 *     the length is 0. A length is in elements: numbers of a table, not records and not bytes;
 *   - what is lent for writing overlaps nothing else that is lent to the same call. Two tables in one array are fine where they lie side by side;
 *   - until the call returns nobody else reads or writes what is lent for writing, and nobody writes what is lent for reading.
 * A call that breaks one of these may read and write anything.
 *
 * What the caller owes if the answer is to speak of the bytes that were fed, and no function can test either:
 *   - between the fresh start and the end a reading is handed its own state and its own tables, both as the last call left them. Other tables of the
 *     same lengths are taken: the reading finishes, and what it had not yet entered it enters there, beside whatever stood there, be it the last
 *     lorry's record. Two readings that go on at once want two sets of tables. Keep a state and its tables in one struct;
 *   - a state is used once: one that was kept from before a piece, and handed in again behind it, reads on as if that piece had not come;
 *   - states and tables are for the archive that made them: in another version their numbers may mean something else.
 * Nothing is read or written then that is not lent.
 *
 * What the caller has to look at and to do:
 *   - answer[TAKZULIT_NUMBER], after each call. Tables and head are a transaction only where it is TAKZULIT_FINISHED. While it is TAKZULIT_MORE
 *     the tables hold what was read so far;
 *   - when no more bytes come, takzulit_end: a reading that wants more is no transaction;
 *   - takzulit_new, before each transaction: an ended reading repeats its answer. Fed the next lorry's bytes it takes none of them, and says
 *     TAKZULIT_FINISHED again, with the last lorry's head and tables;
 *   - what takzulit_push_bytes left of the piece, answer[TAKZULIT_TAKEN] less than its length: bytes follow the transaction. The strict form refuses
 *     them, feeding leaves them to the caller.
 *
 * Tables. A table holds as many whole records as fit (the item table at most 4,294,967,295). A position counts from the transaction's first byte. A
 * field that is not there has 0. The numbers of a record are named below. Prefix 0 is null. A value of prefix 1 is explicit, and its halves
 * are 0 with any other; behind all other prefixes stand 32 bytes. An issuance is blinding nonce (32), entropy (32), amount, keys; the last two with
 * their prefixes have 1, 9 or 33 bytes each.
 *
 * The answer, size_t[3]:
 *   [TAKZULIT_NUMBER]  TAKZULIT_FINISHED, TAKZULIT_MORE, or the number of a refusal, 1 to 14;
 *   [TAKZULIT_PLACE]   the refusal's place; 0 otherwise. Reading: a byte, counted from the transaction's first. Writing: for 6, 12 and 13 a
 *                      record, counted from 0 in its own table (the number of inputs, where the items don't add up to the head's); 4 for 7
 *                      and 8; 0 for 2, 10 and 14;
 *   [TAKZULIT_TAKEN]   reading: how many bytes this call took, the one that settles a refusal included. Writing (TAKZULIT_LENGTH): how many
 *                      bytes are written; 0 after a refusal.
 *
 * The head, uint32_t[7], stands beside the tables. A reader sets it to 0 unless the reading is finished. A writer does not look at the length in it,
 * nor at records behind its counts.
 */
#ifndef TAKZULIT_H
#define TAKZULIT_H

#include <stdbool.h>
#include <stddef.h>
#include <stdint.h>

#ifdef __cplusplus
extern "C" {
#endif

#define TAKZULIT_LIMIT 4000000 /* a transaction's greatest length in bytes */

/* How many numbers: of a record, of a reading state, of the head and of the answer. */
#define TAKZULIT_INPUT_WIDTH 20
#define TAKZULIT_OUTPUT_WIDTH 14
#define TAKZULIT_ITEM_WIDTH 2
#define TAKZULIT_STATE 20
#define TAKZULIT_HEAD 7
#define TAKZULIT_ANSWER 3

enum { TAKZULIT_NUMBER = 0, TAKZULIT_PLACE = 1, TAKZULIT_TAKEN = 2, TAKZULIT_LENGTH = 2 };

/* The numbers of the head. */
enum {
    TAKZULIT_HEAD_VERSION = 0,
    TAKZULIT_HEAD_FLAG = 1, /* the witness flag */
    TAKZULIT_HEAD_INPUTS = 2,
    TAKZULIT_HEAD_OUTPUTS = 3,
    TAKZULIT_HEAD_ITEMS = 4,
    TAKZULIT_HEAD_LOCKTIME = 5,
    TAKZULIT_HEAD_BYTES = 6 /* the length in bytes */
};

/* The numbers of an input record. That of input i is inputs[i * TAKZULIT_INPUT_WIDTH + TAKZULIT_INPUT_..]. */
enum {
    TAKZULIT_INPUT_TXID_POSITION = 0,
    TAKZULIT_INPUT_VOUT = 1,
    TAKZULIT_INPUT_FLAGS = 2, /* 1 pegin, 2 issuance, 3 both */
    TAKZULIT_INPUT_SCRIPT_POSITION = 3,
    TAKZULIT_INPUT_SCRIPT_LENGTH = 4,
    TAKZULIT_INPUT_SEQUENCE = 5,
    TAKZULIT_INPUT_ISSUANCE_POSITION = 6,
    TAKZULIT_INPUT_AMOUNT_PREFIX = 7,
    TAKZULIT_INPUT_AMOUNT_HIGH = 8,
    TAKZULIT_INPUT_AMOUNT_LOW = 9,
    TAKZULIT_INPUT_KEYS_PREFIX = 10,
    TAKZULIT_INPUT_KEYS_HIGH = 11,
    TAKZULIT_INPUT_KEYS_LOW = 12,
    TAKZULIT_INPUT_AMOUNT_PROOF_POSITION = 13,
    TAKZULIT_INPUT_AMOUNT_PROOF_LENGTH = 14,
    TAKZULIT_INPUT_KEYS_PROOF_POSITION = 15,
    TAKZULIT_INPUT_KEYS_PROOF_LENGTH = 16,
    TAKZULIT_INPUT_FIRST_ITEM = 17,   /* the number of its first item in the item table, from 0 */
    TAKZULIT_INPUT_SCRIPT_ITEMS = 18, /* how many from there on are its script stack's */
    TAKZULIT_INPUT_PEGIN_ITEMS = 19   /* and then how many its pegin stack's */
};

/* The numbers of an output record. */
enum {
    TAKZULIT_OUTPUT_ASSET_PREFIX = 0,
    TAKZULIT_OUTPUT_ASSET_POSITION = 1, /* a prefix's position is its own: the 32 bytes stand one behind it */
    TAKZULIT_OUTPUT_VALUE_PREFIX = 2,
    TAKZULIT_OUTPUT_VALUE_POSITION = 3,
    TAKZULIT_OUTPUT_VALUE_HIGH = 4,
    TAKZULIT_OUTPUT_VALUE_LOW = 5,
    TAKZULIT_OUTPUT_NONCE_PREFIX = 6,
    TAKZULIT_OUTPUT_NONCE_POSITION = 7,
    TAKZULIT_OUTPUT_SCRIPT_POSITION = 8,
    TAKZULIT_OUTPUT_SCRIPT_LENGTH = 9,
    TAKZULIT_OUTPUT_SURJECTION_PROOF_POSITION = 10,
    TAKZULIT_OUTPUT_SURJECTION_PROOF_LENGTH = 11,
    TAKZULIT_OUTPUT_RANGE_PROOF_POSITION = 12,
    TAKZULIT_OUTPUT_RANGE_PROOF_LENGTH = 13
};

/* The numbers of an item record. Items stand in the order of the bytes. */
enum { TAKZULIT_ITEM_POSITION = 0, TAKZULIT_ITEM_LENGTH = 1 };

/* The numbers of an answer, and the place that each refusal has in a reading. */
enum {
    TAKZULIT_FINISHED = 0,
    TAKZULIT_REFUSED_ENDS_EARLY = 1,        /* finish, and more is wanted; at the bytes taken */
    TAKZULIT_REFUSED_LIMIT_PASSED = 2,      /* a field would end past 4,000,000; at its start, for a body or further bytes at the length's or
                                               count's. Writing: the written length exceeds it */
    TAKZULIT_REFUSED_NOT_SHORTEST = 3,      /* a count or length that is not in its shortest form; at its start */
    TAKZULIT_REFUSED_NO_RECORD_LEFT = 4,    /* a count that exceeds the records left in its table; at its start */
    TAKZULIT_REFUSED_BAD_PREFIX = 5,        /* a prefix that is not listed; there */
    TAKZULIT_REFUSED_NULL_ISSUANCE = 6,     /* issuance flag, amount and keys null; at the issuance */
    TAKZULIT_REFUSED_BAD_FLAG = 7,          /* witness flag above 1, told after the locktime; at 4 */
    TAKZULIT_REFUSED_EMPTY_WITNESSES = 8,   /* flag 1, all witnesses empty; at 4 */
    TAKZULIT_REFUSED_BYTES_FOLLOW = 9,      /* strict reading; at the first byte that follows */
    TAKZULIT_REFUSED_TABLES_DIFFER = 10,    /* table lengths differ from the fresh start's; at 0. Writing: a count exceeds its table */
    TAKZULIT_REFUSED_STATE_FORGED = 11,     /* the state fails the range test of docs/STATE.md; at 0. It comes before 10 */
    TAKZULIT_REFUSED_OUTPOINT_UNCLEAR = 12, /* writing: an outpoint that can't be told apart: it would be read as another */
    TAKZULIT_REFUSED_BAD_RECORD = 13,       /* writing: a record breaks the tables' rules, or a body lies outside the source */
    TAKZULIT_REFUSED_OUTPUT_SHORT = 14,     /* writing: it has no room */
    TAKZULIT_MORE = 255                     /* more is wanted: neither finished nor refused */
};

/*
 * The fresh start. Every number of the tables is 0 afterwards, and state is that of a reading that has taken nothing.
 */
void takzulit_new(size_t state[TAKZULIT_STATE],
                  uint32_t *inputs, size_t inputs_len,
                  uint32_t *outputs, size_t outputs_len,
                  uint32_t *items, size_t items_len);

/*
 * Feeds a piece of any length. Where state and tables come from takzulit_new and were handed on unaltered, then after each call, wherever the
 * bytes are cut, answer, head and tables are what document 01's reading says of all bytes fed so far. Whatever they are: MORE, the piece was
 * taken entire. Finished: at once with the last byte; what follows in the piece is left. Refused by 1 to 9: tables and head are 0. An ended
 * reading takes no more and repeats its answer. 10 and 11 leave state and tables as they were and take nothing. No answer depends on what
 * stands in the tables. A forged state that passes the range test is read on, within what is lent; it then tells of no bytes that came.
 * Neither the range test nor the tables' lengths show that the tables are another reading's: see what the caller owes.
 */
void takzulit_push_bytes(size_t state[TAKZULIT_STATE],
                         const uint8_t *piece, size_t piece_len,
                         uint32_t *inputs, size_t inputs_len,
                         uint32_t *outputs, size_t outputs_len,
                         uint32_t *items, size_t items_len,
                         uint32_t head[TAKZULIT_HEAD], size_t answer[TAKZULIT_ANSWER]);

/*
 * Finishes: refusal 1 where more is wanted, at the bytes taken; an ended reading repeats its answer. It takes 0 bytes. Refusals leave what they
 * leave above.
 */
void takzulit_end(size_t state[TAKZULIT_STATE],
                  uint32_t *inputs, size_t inputs_len,
                  uint32_t *outputs, size_t outputs_len,
                  uint32_t *items, size_t items_len,
                  uint32_t head[TAKZULIT_HEAD], size_t answer[TAKZULIT_ANSWER]);

/*
 * Reads at once: fresh start, one piece, finish. Never MORE, 10 or 11. Refused: tables and head are 0.
 */
void takzulit_read(const uint8_t *bytes, size_t bytes_len,
                   uint32_t *inputs, size_t inputs_len,
                   uint32_t *outputs, size_t outputs_len,
                   uint32_t *items, size_t items_len,
                   uint32_t head[TAKZULIT_HEAD], size_t answer[TAKZULIT_ANSWER]);

/*
 * The same, and 9 where bytes follow a finished transaction: it is refused then, and the bytes taken are its own.
 */
void takzulit_read_strict(const uint8_t *bytes, size_t bytes_len,
                          uint32_t *inputs, size_t inputs_len,
                          uint32_t *outputs, size_t outputs_len,
                          uint32_t *items, size_t items_len,
                          uint32_t head[TAKZULIT_HEAD], size_t answer[TAKZULIT_ANSWER]);

/*
 * The length that takzulit_write would write, or its refusal but 14.
 */
void takzulit_written_length(const uint32_t head[TAKZULIT_HEAD],
                             const uint32_t *inputs, size_t inputs_len,
                             const uint32_t *outputs, size_t outputs_len,
                             const uint32_t *items, size_t items_len,
                             const uint8_t *source, size_t source_len,
                             size_t answer[TAKZULIT_ANSWER]);

/*
 * Writes a transaction from its head numbers, its tables and the source in which its bodies stand. Finished: the written bytes stand at the
 * output's start, and bytes behind them keep their values. Refused: the output is as it was. Head and tables of a finished reading, with the
 * bytes that were read as the source, give these bytes again, or 14.
 */
void takzulit_write(const uint32_t head[TAKZULIT_HEAD],
                    const uint32_t *inputs, size_t inputs_len,
                    const uint32_t *outputs, size_t outputs_len,
                    const uint32_t *items, size_t items_len,
                    const uint8_t *source, size_t source_len,
                    uint8_t *output, size_t output_len,
                    size_t answer[TAKZULIT_ANSWER]);

/*
 * The fee question of one output record: true exactly if its script has length 0.
 */
bool takzulit_is_fee(const uint32_t output[TAKZULIT_OUTPUT_WIDTH]);

#ifdef __cplusplus
}
#endif

#endif
