/*
 * The C interface of the rewriter of PL/pgSQL trigger bodies for SQLite.
 *
 * A part of memory is handed over as a pointer and a length. Lengths of texts and byte buffers are in
 * bytes. Those of `records` and `starts` count 32-bit numbers, not bytes: for an array of 5,130 numbers
 * hand over 5130, not sizeof.
 *
 * The caller owes this: each pointer is valid for its length and aligned for its type, and what a call
 * may write, its buffers and the answer, overlaps nothing else that is handed over. No pointer may be
 * null, not even for the length 0: for an empty part of memory hand over the address of any byte, for
 * `records` and `starts` that of any uint32_t. The library keeps no pointer, allocates nothing, and
 * holds no state, so calls may run in several threads.
 *
 * Whatever the texts hold and however long the buffers are, each call returns and answers as told here.
 *
 * Link with libplpgsql_rewriter.a, for x86-64 Linux.
 */
#ifndef PLPGSQL_REWRITER_H
#define PLPGSQL_REWRITER_H

#include <stddef.h>
#include <stdint.h>

#ifdef __cplusplus
extern "C" {
#endif

/* The most bytes of the text of a rewriting call, and of a search. */
#define PLPGSQL_TEXT_LIMIT 16384
#define PLPGSQL_SEARCH_LIMIT 65536

/* The least length of output, work, spare and declared, and of records. */
#define PLPGSQL_BUFFER_SIZE 65536
#define PLPGSQL_RECORD_NUMBERS 5130

/* The most names that a function declares, and the numbers of one record. */
#define PLPGSQL_NAME_LIMIT 512
#define PLPGSQL_RECORD_SIZE 10

/* The numbers of every answer. */
#define PLPGSQL_ANSWER_SIZE 4

/* The places in the answer of a rewriting call. */
enum plpgsql_call_answer {
    PLPGSQL_CALL_NUMBER = 0,
    PLPGSQL_CALL_PLACE = 1,
    PLPGSQL_CALL_LENGTH = 2, /* of the output */
    PLPGSQL_CALL_RECORDS = 3
};

/* The places in the answer of a search. */
enum plpgsql_search_answer {
    PLPGSQL_SEARCH_NUMBER = 0,
    PLPGSQL_SEARCH_FOUND = 1,
    PLPGSQL_SEARCH_PLACE = 2,
    PLPGSQL_SEARCH_LENGTH = 3 /* of what was found or written, or would be written */
};

/* The places in a record; record k begins at the number k * PLPGSQL_RECORD_SIZE of records. */
enum plpgsql_record {
    PLPGSQL_RECORD_NEXT = 0,
    PLPGSQL_RECORD_NAME_START = 1,
    PLPGSQL_RECORD_NAME_LENGTH = 2,
    PLPGSQL_RECORD_TYPE_START = 3,
    PLPGSQL_RECORD_TYPE_LENGTH = 4,
    PLPGSQL_RECORD_HAS_DEFAULT = 5,
    PLPGSQL_RECORD_DEFAULT_START = 6,
    PLPGSQL_RECORD_DEFAULT_LENGTH = 7,
    PLPGSQL_RECORD_CONSTANT = 8, /* 1 if CONSTANT stood before the type, else 0 */
    PLPGSQL_RECORD_NOT_NULL = 9  /* 1 if NOT NULL closed the type, else 0 */
};

/* The first number of every answer. The searches give 0 to 3 only. */
enum plpgsql_number {
    PLPGSQL_ACCEPTED = 0,
    PLPGSQL_TEXT_TOO_LONG = 1,    /* the text is longer than its limit */
    PLPGSQL_NOT_ASCII = 2,        /* a byte over 127, in the text or in what is sought */
    PLPGSQL_BUFFER_TOO_SHORT = 3, /* a lent buffer is shorter than it must be */
    PLPGSQL_QUALIFIED_TARGET = 4, /* an assignment to a qualified target q.n, such as NEW.v */
    PLPGSQL_USING_CLAUSE = 5,     /* USING directly behind the level of a RAISE, with no translation */
    PLPGSQL_RESULT_TOO_LONG = 6,  /* the result of a pass is longer than 65,536 bytes */
    PLPGSQL_TOO_MANY_NAMES = 7,   /* over 512 different names are declared */
    PLPGSQL_MALFORMED_LINE = 11,  /* a line of the table of levels is malformed */
    PLPGSQL_REPEATED_LEVEL = 12,  /* the table gives a level twice */
    PLPGSQL_MISSING_LEVEL = 13    /* the table lacks a level */
};

/* ---- The rewriting calls ----
 *
 * answer: number, place, length of the output, records.
 *
 *   0: place 0; the output holds the rewritten body; records is the number of records.
 *   1: place 0, length 0, records 0.
 *   2: place is the offset of the first byte over 127; length 0, records 0.
 *   3: place 0, length 0, records 0.
 *   4: place is the length of q; the output holds `q.n`; records 0.
 *   5: place 0; the output holds the clause from USING on; records 0.
 *   6: place 0, length 0, records 0.
 *   7: place 0, length 0, records 0. Only plpgsql_preprocess and plpgsql_preprocess_by_levels give it.
 *   11, 12: place is the offset of the table's first bad line; length 0, records 0.
 *   13: place is the table's length; length 0, records 0.
 *
 * Only the calls with a table give 11, 12 and 13. The checks come in the order 1, 3, 2, then 11 or 12, then
 * 13, then 7; then the five passes one after the other, and in one pass 4 and 5 come before 6.
 *
 * 1, 2 and 3 write nothing but the answer. After every other number the first 65,536 bytes of the
 * output are what is named above and then zeros, and the first 65,536 bytes of work and spare are
 * zeros. What lies behind them is not written. A full output has no zero behind its last byte: go by its
 * length.
 */

/*
 * Rewrites a body. It needs a text of up to 16,384 bytes, and output, work and spare of 65,536 bytes or
 * more. Records is always 0.
 */
void plpgsql_transform_body(
    const uint8_t *text, size_t text_length,
    uint8_t *output, size_t output_length,
    uint8_t *work, size_t work_length,
    uint8_t *spare, size_t spare_length,
    uint32_t answer[PLPGSQL_ANSWER_SIZE]);

/*
 * Rewrites a function: cuts off the declarations and what else stands before the first BEGIN, and
 * rewrites the rest. It needs declared, of 65,536 bytes or more, and records, of 5,130 numbers or more
 * (records_length counts numbers), besides.
 *
 * After 0 the first 5,130 numbers of records are the records and then zeros, and the first 65,536 bytes
 * of declared are their texts and then zeros. After 4, 5, 6 and 7 they are zeros.
 *
 * A record is ten numbers (enum plpgsql_record): next, start and length of the name, start and length
 * of the type, 1 if a default is present and else 0, start and length of the default (0 and 0 if it is
 * absent), 1 if CONSTANT stood before the type and else 0, 1 if NOT NULL closed it and else 0. Starts are
 * offsets in declared. Record 0 is the head: its next leads to the first record, and its other nine
 * numbers are 0. A next is the number of a record: the chain from the head leads through all records in
 * byte order of names and ends with 0.
 * White space (9 to 13 and 32), in literals and comments too, splits what stands ahead of the default
 * into words: the name, CONSTANT if that is the next one, the type, and NOT NULL if these are the last
 * two of the rest. These words count in any letter case and are not part of the type. Where no type is
 * left there is no record: the name is not counted, and an earlier record of it stays as it is.
 * A default begins behind the leftmost `:=`, `=` or DEFAULT of its declaration that stands outside
 * literals and comments; an `=` counts if no `=` stands beside it and no `>` behind it, and DEFAULT as a
 * whole word in any letter case.
 * The records stand in order of first declaration; a later declaration of a name replaces its type, its
 * default and the two numbers for CONSTANT and NOT NULL. The texts stand one behind the other in the order
 * of the records: name, type, default.
 */
void plpgsql_preprocess(
    const uint8_t *text, size_t text_length,
    uint8_t *output, size_t output_length,
    uint8_t *work, size_t work_length,
    uint8_t *spare, size_t spare_length,
    uint8_t *declared, size_t declared_length,
    uint32_t *records, size_t records_length,
    uint32_t answer[PLPGSQL_ANSWER_SIZE]);

/* ---- The rewriting calls with a table of levels ----
 *
 * The same calls, where a table says what becomes of a RAISE of each level. The table has a line for each
 * level, in any order: DEBUG, LOG, INFO, NOTICE, WARNING or EXCEPTION in capitals, one space, then drop,
 * abort, fail or rollback, then a newline (byte 10). So this is a table:
 *
 *     DEBUG drop
 *     LOG drop
 *     INFO drop
 *     NOTICE drop
 *     WARNING fail
 *     EXCEPTION abort
 *
 * A statement of a level with drop vanishes, and what stands in it is not read. With another action it
 * becomes `SELECT RAISE(ABORT, m);`, or FAIL or ROLLBACK in place of ABORT, which are SQLite's words; the
 * message m and USING are read as for RAISE EXCEPTION, so every such level can give 5. Without a table
 * EXCEPTION has abort and the others drop, and a table that says so gives the same.
 *
 * A line is malformed if it is anything but the above: empty, with a carriage return, a second space or a
 * level in small letters, or the last one without its newline. The first bad line decides. A table may have
 * any length.
 *
 * Where a level ends does not depend on the table: EXCEPTION has its nine letters, and the others run to
 * white space or `;`. With LOG abort, `RAISE LOG'';` becomes `SELECT RAISE(ABORT, );`, and `RAISE LOGS 'a';`
 * becomes `SELECT RAISE(ABORT, 'a');`.
 */

/* plpgsql_transform_body with a table. */
void plpgsql_transform_body_by_levels(
    const uint8_t *text, size_t text_length,
    const uint8_t *table, size_t table_length,
    uint8_t *output, size_t output_length,
    uint8_t *work, size_t work_length,
    uint8_t *spare, size_t spare_length,
    uint32_t answer[PLPGSQL_ANSWER_SIZE]);

/* plpgsql_preprocess with a table. After 11, 12 and 13 records and declared are zeros too. */
void plpgsql_preprocess_by_levels(
    const uint8_t *text, size_t text_length,
    const uint8_t *table, size_t table_length,
    uint8_t *output, size_t output_length,
    uint8_t *work, size_t work_length,
    uint8_t *spare, size_t spare_length,
    uint8_t *declared, size_t declared_length,
    uint32_t *records, size_t records_length,
    uint32_t answer[PLPGSQL_ANSWER_SIZE]);

/* ---- The searches ----
 *
 * They look for what is live, that is outside literals and comments. A text may have 65,536 bytes.
 *
 * answer: number, found, place, length.
 *
 *   0: found is 1 and place the offset of what was found, or found is 0 and place 0. Length is told
 *      with each search; where nothing is told it is 0.
 *   1: the text is too long; found, place and length 0.
 *   3: a buffer is too short; found, place and length 0.
 *   2: place is the offset of the first byte over 127, in the text or else in keyword or needle; found
 *      and length 0. A keyword or needle may have any length: an offset of 2^32 or more is given as
 *      2^32 - 1.
 *
 * The checks come in the order 1, 3, 2, but in plpgsql_requote_dollar_literals in the order 1, 2, 3.
 * Each of these numbers leaves all buffers as they were.
 * After 0 a map holds a byte for each byte of the text, 0 for a live one and 1 for a quoted one, also
 * where nothing is found. It needs the text's length; what lies behind is not written.
 */

/* Fills the map and seeks nothing: found 0, place 0. */
void plpgsql_regions(
    const uint8_t *text, size_t text_length,
    uint8_t *map, size_t map_length,
    uint32_t answer[PLPGSQL_ANSWER_SIZE]);

/*
 * The first place at `from` or behind it where the keyword stands in any letter case, with a live first
 * byte and no letter, digit, `_` or `$` on either side. An empty keyword, or a start past the end of
 * the text, finds none. A keyword may have any length.
 */
void plpgsql_find_keyword(
    const uint8_t *text, size_t text_length,
    uint8_t *map, size_t map_length,
    const uint8_t *keyword, size_t keyword_length,
    size_t from,
    uint32_t answer[PLPGSQL_ANSWER_SIZE]);

/* The first live byte that equals this one. A byte over 127 is never found. */
void plpgsql_find_in_code(
    const uint8_t *text, size_t text_length,
    uint8_t *map, size_t map_length,
    uint8_t byte,
    uint32_t answer[PLPGSQL_ANSWER_SIZE]);

/*
 * The first place where the bytes of the needle stand, with a live first byte. An empty needle finds
 * none. A needle may have any length.
 */
void plpgsql_find_str_in_code(
    const uint8_t *text, size_t text_length,
    uint8_t *map, size_t map_length,
    const uint8_t *needle, size_t needle_length,
    uint32_t answer[PLPGSQL_ANSWER_SIZE]);

/*
 * The word at `from` or behind it, past quoted bytes and white space (9, 10, 12, 13 and 32): live
 * letters, digits, `_` and `$`. Place is its offset and length its length. Where another byte comes
 * first, or the end, none is found.
 */
void plpgsql_next_word_in_code(
    const uint8_t *text, size_t text_length,
    uint8_t *map, size_t map_length,
    size_t from,
    uint32_t answer[PLPGSQL_ANSWER_SIZE]);

/*
 * Splits the text at each live byte that equals the separator. Length is the number of pieces, found 0
 * and place 0. Starts needs one number more than the text has bytes (starts_length counts numbers);
 * it holds the offset of each piece, and what lies behind is not written. The empty text has one piece.
 */
void plpgsql_split_in_code(
    const uint8_t *text, size_t text_length,
    uint8_t *map, size_t map_length,
    uint32_t *starts, size_t starts_length,
    uint8_t separator,
    uint32_t answer[PLPGSQL_ANSWER_SIZE]);

/*
 * Tells the requoted length: how many bytes plpgsql_requote_dollar_literals writes for this text. Length
 * is that number, found 0 and place 0. It is at most twice the text's length, and may be less than it.
 * The call is lent no buffer and gives 0, 1 and 2 only.
 */
void plpgsql_requoted_length(
    const uint8_t *text, size_t text_length,
    uint32_t answer[PLPGSQL_ANSWER_SIZE]);

/*
 * Writes the text with each dollar literal as one in single quotes. Length is the number of bytes
 * written, which is the requoted length; found 0 and place 0. The output needs just that length, and one
 * byte less gives 3. What lies behind the result is not written.
 */
void plpgsql_requote_dollar_literals(
    const uint8_t *text, size_t text_length,
    uint8_t *output, size_t output_length,
    uint32_t answer[PLPGSQL_ANSWER_SIZE]);

/* Found is 1 if a dollar literal is not closed. Place is 0. */
void plpgsql_has_unterminated_dollar_quote(
    const uint8_t *text, size_t text_length,
    uint32_t answer[PLPGSQL_ANSWER_SIZE]);

/* Found is 1 if there is a live EXCEPTION whose next live word is WHEN. Place is 0. */
void plpgsql_has_exception_handler(
    const uint8_t *text, size_t text_length,
    uint8_t *map, size_t map_length,
    uint32_t answer[PLPGSQL_ANSWER_SIZE]);

/*
 * Found is 1 if the body is closed: it ends in a live `;`, holds no backslash, no comment and no newline
 * in a literal, and behind each RAISE outside literals that no letter, digit or `_` touches come
 * directly a space, one or more letters, digits or `_`, and a space or `;`. Place is 0.
 *
 * A closed body with any body behind it is rewritten as the two are apart: unless the joined text gives
 * 1 or 6, it is accepted exactly if both are, and its result is their results joined.
 */
void plpgsql_is_closed(
    const uint8_t *text, size_t text_length,
    uint8_t *map, size_t map_length,
    uint32_t answer[PLPGSQL_ANSWER_SIZE]);

#ifdef __cplusplus
}
#endif

#endif
