/*
 * screen.h: the lines of an option screen, checked, merged, run on the rows of a chain, counted, saved and loaded.
 *
 * A screen is a tree of lines ("c0 > 5", "c1 is null", "c2 in [1, 2]") that a row of an option chain passes or not.
 * The caller lends it as plain bytes; nothing is allocated and nothing is kept after a call. Calls may run at the same
 * time on different threads if no buffer that one writes is lent to another. The calls are proved to give the
 * answer stated here on every input, damaged bytes and any 64-bit numbers too, and to read nothing outside what was
 * lent.
 *
 * WHAT IS LENT
 *
 *   table    one byte for each column, its type (SCREEN_TYPE_..). At most 64 columns; none at all is fine.
 *   records  16 bytes for each record, laid out as below. Bytes after the last whole record are allowed and left alone.
 *   pool     the values of lists: 8 bytes each, 64-bit two's complement, little-endian. At most 8,192 values.
 *   text     the bytes of symbols, at most 8,192; none at all is fine. A symbol is 0 to 16 bytes of it, told by a start and a
 *            length; symbols of equal bytes are equal wherever they lie, and parts of the text may serve several.
 *   used     how many records, from record 0 on, belong to the screen. At most 4,096, and no more than were lent.
 *   root     the number of the record that the screen means, below used. Records count from 0.
 *
 * Records, the pool and all other slices are a pointer and a length IN BYTES. Lent buffers and out-parameters must not
 * overlap each other: nothing can check that, and the answer is not stated if they do. Byte slices need no alignment.
 *
 * NULL: a slice of length 0 may come with any pointer, NULL too; it is not looked at. A slice of another length must
 * point to that many bytes, and an out-parameter to its number. NULL there is not checked and no refusal: the program
 * is ended by the system at the first byte read or written, as with any other bad pointer.
 *
 * screen_build.h, beside this file, puts the bytes together and takes them as one struct in each call.
 *
 * THE 16 BYTES OF A RECORD
 *
 *   byte 0 kind, byte 1 code, byte 2 type, byte 3 zero; A = bytes 4-7, B = bytes 8-11, C = bytes 12-15, little-endian.
 *   Every field that a kind does not use is zero. An input is the number of an earlier record.
 *
 *   kind                     code              type  A              B            C
 *   SCREEN_KIND_COLUMN       -                 -     column number  -            -
 *   SCREEN_KIND_LITERAL      -                 yes   -              B and C: the value, 64-bit two's complement;
 *                                                                   of type Text B the start and C the length
 *   SCREEN_KIND_NULL         -                 yes   -              -            -
 *   SCREEN_KIND_BINARY       SCREEN_OP_..      -     left input     right input  -
 *   SCREEN_KIND_NOT          -                 -     input          -            -
 *   SCREEN_KIND_IS_NULL      -                 -     input          -            -
 *   SCREEN_KIND_IS_NOT_NULL  -                 -     input          -            -
 *   SCREEN_KIND_IS_BETWEEN   SCREEN_CLOSED_..  -     value input    low input    high input
 *   SCREEN_KIND_LIST         1: holds a null   yes   start in pool  count        -
 *   SCREEN_KIND_IS_IN        1: nulls_equal    -     value input    list input   -
 *
 *   Start and count of a list are in values, not bytes. The code of a list or an is_in is otherwise 0. A list of code 1
 *   has a null beside its values: with count 0 that null is its one entry. In the pool and in rows a symbol is 8 bytes: its
 *   start in the low four, its length in the high four.
 *
 * ANSWERS
 *
 * An answer below 256 is a refusal (screen_refused): the number says why (enum screen_refusal, screen_refusal_text),
 * and nothing was written. 256 and above is an answer of the call, named where the call is declared.
 *
 * WHAT IS PROVED, AND WHAT IS NOT
 *
 * Proved is the code of each call, from the bytes lent to the answer and the bytes written. Not covered: the compiler's
 * back end that turned it into machine code, the stack that a call needs (said where the call is declared), and the C
 * program around it.
 *
 * WHAT A CALL COSTS
 *
 * Each call checks every used record first, whether the root reaches it or not, so its time grows with `used`: a
 * screen that is kept for many calls should hold no record that its root does not reach. Checking a short screen
 * takes some 50 ns, a full one 15 to 30 us, whatever its lists. The slowest screens known to rewrite, 64 to 84 lists
 * carried from column to column by equalities, take some 4 ms, beside symbols some 5. A hedge list checks the screen
 * once for all rows and takes them 64 at a time: 1,024 rows of 10 lines take some 0.02 ms, of a full screen of
 * comparisons 0.7 ms; the slowest known, 743 lists of divisions, takes some 15 ms. A screen with symbols takes longer.
 * Where it is rewritten its symbols are put in order first, which of a full text pool takes some 2 ms. In a hedge
 * list they become numbers first, which takes some 0.13 us for each byte of the text pool: with a full one 1,024 rows
 * of 10 lines take some 0.2 ms, of 1,022 lines 1.8 ms; the slowest found, 1,169 lists over 64 columns of symbols,
 * some 15 ms, of some shapes of pool and text up to 22.
 *
 * PLATFORM
 *
 * x86-64 Linux, two's complement. The archive needs nothing but memcpy and memset, has some 222 KB of code, keeps no
 * state and opens no file. MIT licence: LICENSE, and NOTICE for the Rust sources that it follows.
 *
 * "Document 01" in this file and in the sources is docs/01-scope.md, the paper that the library is made from.
 */
#ifndef SCREEN_H
#define SCREEN_H

#include <stddef.h>
#include <stdint.h>

/* Of this interface: the major number rises if a host must be changed to compile, the minor one if something is new. */
#define SCREEN_VERSION_MAJOR 5
#define SCREEN_VERSION_MINOR 0
#define SCREEN_VERSION "5.0"

/* A host that leaves an answer unread is warned, by compilers that can. */
#if defined(__GNUC__)
#define SCREEN_MUST_USE __attribute__((warn_unused_result))
#else
#define SCREEN_MUST_USE
#endif

#ifdef __cplusplus
extern "C" {
#endif

/* The limits: the value itself is still accepted. */
enum screen_limit {
    SCREEN_MAX_COLUMNS = 64,
    SCREEN_MAX_RECORDS = 4096,
    SCREEN_MAX_POOL_VALUES = 8192,
    SCREEN_MAX_TEXT_BYTES = 8192,
    SCREEN_MAX_SYMBOL_BYTES = 16,
    SCREEN_MAX_TREE = 4096,     /* records of a root's tree, a shared one counted each time it is reached */
    SCREEN_MAX_CONJUNCTS = 128, /* conjuncts of a root, a shared one counted each time it is reached */
    SCREEN_RECORD_BYTES = 16,
    SCREEN_VALUE_BYTES = 8,
    SCREEN_MAX_ROWS = 1024,         /* of a chain */
    SCREEN_PLACE_BYTES = 2,         /* of a hedge list: a row's number */
    SCREEN_CELL_BYTES = 16,         /* of a row with halves: a column's whole part and its half part */
    SCREEN_MAX_REASONS_BYTES = 48128, /* 1,024 lines of at most 47 bytes: every text of screen_rewrite fits */
    SCREEN_BLOCK_BYTES = 512,       /* a saved screen is whole blocks */
    SCREEN_MAX_FILE_BYTES = 145920  /* 285 blocks: 64 columns, 4,096 records, 8,192 values and 8,192 bytes of text */
};

/* Types of columns, literals, nulls and lists. */
enum screen_type {
    SCREEN_TYPE_INT = 1,  /* 64-bit signed */
    SCREEN_TYPE_DAY = 2,  /* 32-bit signed, held in 64 bits */
    SCREEN_TYPE_TRUTH = 3, /* 0 false, 1 true */
    SCREEN_TYPE_TEXT = 4 /* a symbol: 0 to 16 bytes, ordered byte by byte, 0 to 255, a prefix below what extends it */
};

/* Byte 0 of a record. */
enum screen_kind {
    SCREEN_KIND_COLUMN = 1,
    SCREEN_KIND_LITERAL = 2,
    SCREEN_KIND_NULL = 3,
    SCREEN_KIND_BINARY = 4,
    SCREEN_KIND_NOT = 5, /* above any truth; of an unknown one it is unknown, so the row does not pass */
    SCREEN_KIND_IS_NULL = 6,
    SCREEN_KIND_IS_NOT_NULL = 7,
    SCREEN_KIND_IS_BETWEEN = 8,
    SCREEN_KIND_LIST = 9,
    SCREEN_KIND_IS_IN = 10
};

/*
 * The code of a binary record. Codes 8 to 12 are arithmetic that is left out: a record with one is refused. FloorDivide
 * and Modulus are values, of type Int; every other binary record is a truth.
 */
enum screen_operator {
    SCREEN_OP_EQ = 0,
    SCREEN_OP_EQ_VALIDITY = 1, /* equal, null taken as a value */
    SCREEN_OP_NOT_EQ = 2,
    SCREEN_OP_NOT_EQ_VALIDITY = 3, /* not equal, null taken as a value */
    SCREEN_OP_LT = 4,
    SCREEN_OP_LT_EQ = 5,
    SCREEN_OP_GT = 6,
    SCREEN_OP_GT_EQ = 7,
    SCREEN_OP_FLOOR_DIVIDE = 13, /* of two Ints: the quotient, rounded down */
    SCREEN_OP_MODULUS = 14,      /* of two Ints: the remainder, with the divisor's sign or zero */
    SCREEN_OP_AND = 15,
    SCREEN_OP_OR = 16,
    SCREEN_OP_XOR = 17,
    SCREEN_OP_LOGICAL_AND = 18,
    SCREEN_OP_LOGICAL_OR = 19
};

/* The code of an is_between record: which ends belong to the range. */
enum screen_closed {
    SCREEN_CLOSED_BOTH = 0,
    SCREEN_CLOSED_LEFT = 1,  /* the low end only */
    SCREEN_CLOSED_RIGHT = 2, /* the high end only */
    SCREEN_CLOSED_NONE = 3
};

/*
 * Why a call refused. The numbers are looked for in this order and the first that applies is given: 1, 2, 3; then the
 * used records from record 0 up, reached by the root or not, and for each of them 4, 5, 6, 7; then 7 for the root.
 * After these come the numbers of the single calls, in rising order but for four: the hedge list looks for 20 before 12,
 * showing a row looks for 17 before 14, loading looks first at the file: 15, then 14, then 1 to 7 of the screen that it
 * holds; building the slowest screen looks for 19, then 11.
 */
enum screen_refusal {
    /* Over 64 columns, or a byte of the table that is no type. */
    SCREEN_REFUSED_TABLE = 1,
    /*
     * used is over 4,096 or over the whole records lent, the pool is over 8,192 values or not whole values, or the text
     * is over 8,192 bytes.
     */
    SCREEN_REFUSED_SIZE = 2,
    /* The root is not below used. */
    SCREEN_REFUSED_ROOT = 3,
    /*
     * A record of unknown kind, code or type, with a nonzero unused field, or a literal outside its type: a symbol past the
     * text, also of length 0, or of over 16 bytes.
     */
    SCREEN_REFUSED_RECORD = 4,
    /*
     * A record with an input that is not below it, a column that is not in the table, or a list whose start plus count
     * is past the pool (also with count 0) or that has a value outside its type. Pool values in no list do not matter.
     */
    SCREEN_REFUSED_REFERENCE = 5,
    /* A binary record with an arithmetic operator that is left out, codes 8 to 12. */
    SCREEN_REFUSED_OPERATOR = 6,
    /*
     * Types that do not fit. Comparisons and is_between take values of one type, Truth too; FloorDivide and Modulus
     * take Int; logic and Not take Truth; a list serves only as the second input of is_in, and is of the type of its
     * first. The root must be Truth.
     */
    SCREEN_REFUSED_TYPES = 7,
    /* The root's tree has over 4,096 records, a shared record counted each time it is reached, lists too. */
    SCREEN_REFUSED_TREE = 8,
    /*
     * Over 128 conjuncts. They are what the root joins by And and LogicalAnd, from left to right through both of their
     * inputs; a record that is reached as a conjunct twice counts twice. All count, even if an early one is impossible.
     */
    SCREEN_REFUSED_CONJUNCTS = 9,
    /* 10 is not used: no refusal has this number. */
    /*
     * No room for what rewriting would add: used with the added records would be over 4,096 or over the whole records
     * lent, or the rewritten root's tree, counted as for 8, would have over 4,096 records. Building the slowest screen: a
     * lent table, or lent records, that cannot hold it.
     */
    SCREEN_REFUSED_ROOM = 11,
    /* The row has not exactly eight bytes for each column; a chain's values, not for each row and column. */
    SCREEN_REFUSED_ROW_LENGTH = 12,
    /*
     * A null mark at or above the number of columns, a value outside its column's type, or a column marked null whose
     * eight bytes are not zero. Every column counts, read by the root or not.
     */
    SCREEN_REFUSED_ROW = 13,
    /*
     * A lent buffer is too short: saving's file, one of loading's table, records, pool and text, or the row that is shown,
     * which has a place for each column; that is looked at whether some row passes or not.
     */
    SCREEN_REFUSED_SHORT = 14,
    /*
     * Not a saved screen: a wrong checksum, block order, kind or count, an unused byte that is not zero, a used count
     * that is not the number of records held, a missing end or a trailing byte.
     */
    SCREEN_REFUSED_FILE = 15,
    /* The lent text buffer cannot hold the reasons of the rewritten screen. */
    SCREEN_REFUSED_REASONS = 16,
    /* The line in the way, and showing and checking a row: a screen that is not plain (screen_rewrite says which are). */
    SCREEN_REFUSED_PLAIN = 17,
    /*
     * Checking a row: it has not exactly 16 bytes for each column, a half part is not -1, 0 or +1, a null mark is at or
     * above the number of columns, or a column marked null has a part that is not zero. Every column counts, read by the
     * root or not.
     */
    SCREEN_REFUSED_CELLS = 18,
    /* Building the slowest screen: not 2 to 64 columns. */
    SCREEN_REFUSED_COLUMNS = 19,
    /* A chain of over 1,024 rows, or a list buffer with fewer places than the chain has rows. */
    SCREEN_REFUSED_CHAIN = 20,
    /* A sum of the tally, or its false and unknown rows together, would pass 64 bits unsigned. */
    SCREEN_REFUSED_TALLY = 21
};

/* Is the answer of a call a refusal? */
static inline int screen_refused(uint32_t answer)
{
    return answer < 256;
}

/* The plain sentence for a refusal number, for those who look numbers up. Never NULL. */
static inline const char *screen_refusal_text(uint32_t answer)
{
    switch (answer) {
    case SCREEN_REFUSED_TABLE:
        return "The table has more than 64 columns, or a column of an unknown type.";
    case SCREEN_REFUSED_SIZE:
        return "More than 4,096 records are used or more than were lent, the pool is over 8,192 values or ends inside a "
               "value, or the text is over 8,192 bytes.";
    case SCREEN_REFUSED_ROOT:
        return "The root is not one of the used records.";
    case SCREEN_REFUSED_RECORD:
        return "A record has an unknown kind, code or type, an unused field that is not zero, or a literal outside its "
               "type.";
    case SCREEN_REFUSED_REFERENCE:
        return "A record names an input that is not before it, a column that does not exist, or a list that is not in "
               "the pool or has a value outside its type.";
    case SCREEN_REFUSED_OPERATOR:
        return "A record uses an arithmetic operator other than FloorDivide and Modulus.";
    case SCREEN_REFUSED_TYPES:
        return "The types of a record's inputs do not fit it, or the root is not a truth.";
    case SCREEN_REFUSED_TREE:
        return "The screen has more than 4,096 records, shared ones counted each time they are reached.";
    case SCREEN_REFUSED_CONJUNCTS:
        return "The screen has more than 128 conjuncts, shared ones counted each time they are reached.";
    case SCREEN_REFUSED_ROOM:
        return "The rewritten screen has no room: it would pass 4,096 records or those lent, or its tree would have "
               "more than 4,096.";
    case SCREEN_REFUSED_ROW_LENGTH:
        return "The row does not have exactly eight bytes for each column.";
    case SCREEN_REFUSED_ROW:
        return "The row has a null mark beyond its columns, a value outside its column's type, or a null whose value "
               "is not zero.";
    case SCREEN_REFUSED_SHORT:
        return "A lent buffer is too short for the file, for what the file holds, or for the row shown.";
    case SCREEN_REFUSED_FILE:
        return "This is not a saved screen, or it was damaged.";
    case SCREEN_REFUSED_REASONS:
        return "The text buffer is too short for the reasons of the rewritten screen.";
    case SCREEN_REFUSED_PLAIN:
        return "The screen is not plain: a line is not one of the plain forms, or a Truth or Text column is read.";
    case SCREEN_REFUSED_CELLS:
        return "The row does not have exactly 16 bytes for each column, or it has a half part other than -1, 0 and +1, a "
               "null mark beyond its columns, or a null whose parts are not zero.";
    case SCREEN_REFUSED_COLUMNS:
        return "The slowest screen is built for 2 to 64 columns.";
    case SCREEN_REFUSED_CHAIN:
        return "The chain has more than 1,024 rows, or the list buffer has fewer places than the chain has rows.";
    case SCREEN_REFUSED_TALLY:
        return "A sum of the tally, or its false and unknown rows together, would pass 64 bits.";
    default:
        return screen_refused(answer) ? "No refusal has this number." : "Not refused.";
    }
}

/* ------------------------------------------------------------------------------------------------ checking a screen */

/* The answer of screen_check. */
enum screen_check_answer {
    SCREEN_ACCEPTED = 256 /* the screen is well formed */
};

/*
 * Is this a well-formed screen? Answers SCREEN_ACCEPTED, or a refusal, 1 to 7. Writes nothing.
 *
 *   table, table_len      the column types; table_len is the number of columns
 *   records, records_len  the records; records_len / 16, rounded down, are lent
 *   pool, pool_len        the values of lists; pool_len is 8 times their number
 *   text, text_len        the bytes of symbols; a screen without symbols needs none
 *   used                  how many of the records belong to the screen; any number, one too large is refused
 *   root                  the record that the screen means; any number, one not below used is refused
 *
 * The call needs less than 72 KB of stack.
 */
SCREEN_MUST_USE
uint32_t screen_check(const uint8_t *table, size_t table_len, const uint8_t *records, size_t records_len,
                      const uint8_t *pool, size_t pool_len,
                      const uint8_t *text, size_t text_len, uint64_t used, uint64_t root);

/* ---------------------------------------------------------------------------------------------- rewriting a screen */

/* The answers of screen_rewrite. */
enum screen_rewrite_answer {
    SCREEN_UNCHANGED = 256,      /* there is nothing to merge; nothing is written */
    SCREEN_NOTHING_PASSES = 257, /* no row passes; the new root is a false literal, the one record added */
    SCREEN_REWRITTEN = 258       /* the new root is the merged screen */
};

/*
 * Merges the lines of a screen: "c0 > 3" and "c0 > 5" become "c0 > 5", a range and a value outside it let nothing pass,
 * "c0 == c1" carries what is known of c0 to c1. Answers one of the above, or a refusal: 1 to 7, 8, 9, 11, 16.
 *
 *   table .. root  as in screen_check, but the records may be written
 *   reasons, reasons_len
 *                  the buffer for the text of reasons; reasons_len is in bytes, and SCREEN_MAX_REASONS_BYTES are enough
 *                  for every screen. Written with SCREEN_REWRITTEN are its first *reasons_used bytes; those behind them,
 *                  and with another answer all of them, keep their values
 *   new_root       not NULL. Written with SCREEN_NOTHING_PASSES and SCREEN_REWRITTEN: the root of the screen returned.
 *                  Keeps its value with SCREEN_UNCHANGED and with a refusal
 *   new_used       not NULL, and not the same as new_root. Written with the same two answers: how many records belong
 *                  to the screen returned. Keeps its value with SCREEN_UNCHANGED and with a refusal
 *   reasons_used   not NULL, and none of these two. Written with all three answers: the length of the text in bytes; 0
 *                  with SCREEN_UNCHANGED and SCREEN_NOTHING_PASSES, whose text is empty. Keeps its value with a refusal
 *   passes         not NULL, and none of these three. Written with all three answers: how many passes over the
 *                  equalities were made, the last one, which changes nothing, counted; 0 without an equality, or where a
 *                  line made its column impossible and the reading stopped there. Keeps its value with a refusal
 *
 * The text says which typed line is behind each comparison of a column with a value that the call has added, in the
 * order in which their records were added, one a line:
 *
 *   0 GtEq 5 2     column 0, c0 >= 5, and the 5 was first given by line 2
 *
 * that is the column's number, the operator (Eq, NotEq, Lt, LtEq, Gt, GtEq), the value and the line's number, between
 * them one blank, and byte 10 at the end, of the last line too. Numbers are decimal without leading zeros, a minus before
 * negative values; a Truth is 0 or 1, a Day its number, a symbol the letter t and two lower-case hexadecimal digits for each
 * of its bytes, as t535058 of SPX. Lines are the conjuncts of the root sent, counted from 0 from left
 * to right; one that is reached twice is two lines. Of lines that give the same value the first keeps it, also where a
 * later one opens the end or excludes the value there; what an equality carries to another column keeps its line. An Eq
 * made of two ends names the line of the lower end. Two different lists of reasons never have the same text. No zero byte
 * closes it.
 *
 * *passes is at most the number of different columns in the equalities; screen_slowest builds screens that reach it.
 *
 * The screen returned is the one sent with the records as they are after the call, *new_root and *new_used; with
 * SCREEN_UNCHANGED it is the one sent. It keeps its table, its pool and its text. A symbol that it compares with has the
 * start that the kept value had: of equal symbols the one held first, for an Eq made of two ends the lower end's, and where
 * a NotEq opened an end the NotEq's.
 *
 * Before it runs on many rows it should be copied out: each call checks all used records, and those of the screen sent
 * are still among them. screen_copy_reached of screen_build.h does so; it takes what the root reaches.
 *
 * What is written: with SCREEN_NOTHING_PASSES and SCREEN_REWRITTEN the records from number `used` up to, not including,
 * number *new_used, each whole; with SCREEN_REWRITTEN *new_root is one of them, never a record that was sent. Those
 * before them are the screen sent, which can still be used with its old root;
 * those behind them, and bytes after the last whole record, keep their values. With SCREEN_UNCHANGED and with a refusal
 * no byte changes. While the call runs on a screen with symbols its used records hold something else; they are put back.
 *
 * So the call needs room: lend more records than are used. SCREEN_NOTHING_PASSES needs one; SCREEN_REWRITTEN three for
 * each comparison of a column with a value that the merged screen has, and one for each And that joins its conjuncts.
 * Without room the answer is SCREEN_REFUSED_ROOM, and the same call with more records lent may succeed; lending 4,096
 * records is all the room there is, since no more can be used. SCREEN_UNCHANGED needs none. Records are looked at before
 * the text: if they have room and the text has not, the answer is SCREEN_REFUSED_REASONS, and the records are not added
 * either. A buffer exactly as long as the text is long enough.
 *
 * Rewriting the screen returned once more answers SCREEN_UNCHANGED; or SCREEN_REFUSED_CONJUNCTS, if it has over 128
 * conjuncts, as equalities that carry bounds to many columns can make it.
 *
 * What holds of the screen returned: a row passes it exactly if it passes the screen sent. That is so whatever the row
 * holds, or, if the root sent reaches a FloorDivide or Modulus record, of every row whose values are within the types
 * of their columns; screen_test_row takes no others. So with SCREEN_NOTHING_PASSES no such row passes. That answer is
 * not given of every screen that no row passes: "c0 > 3" and "c0 < 4" are left as they are, though no whole number
 * passes both. Of a plain screen that is not refused it is given exactly if no row passes even where values half way
 * between two whole numbers are allowed. A screen is plain if it reads no Truth and no Text column and each of its conjuncts is one
 * of these, whatever stands among the records that the root does not reach:
 *
 *   a column against a literal, either way round, by Eq, NotEq, Lt, LtEq, Gt or GtEq; Not of that
 *   a column against a column by Eq
 *   is_between of a column and two literals
 *   is_in of a column over a list of at most 100 values that holds no null; Not of that
 *   is_null or is_not_null of a column; Not of that
 *
 * A conjunct with a FloorDivide or Modulus in it is none of these: it stays as it is and says nothing of its columns.
 *
 * The call needs less than 96 KB of stack, less than 400 KB where many lists are carried by many equalities, less than 576 KB
 * where a column or a record is of type Text, and less than 896 KB where both.
 */
SCREEN_MUST_USE
uint32_t screen_rewrite(const uint8_t *table, size_t table_len, uint8_t *records, size_t records_len,
                        const uint8_t *pool, size_t pool_len,
                        const uint8_t *text, size_t text_len, uint64_t used, uint64_t root,
                        uint8_t *reasons, size_t reasons_len, uint64_t *new_root, uint64_t *new_used,
                        uint64_t *reasons_used, uint64_t *passes);

/* The answers of screen_line_in_the_way. */
enum screen_line_answer {
    SCREEN_ROW_PASSES = 256, /* some row passes the screen as it is */
    SCREEN_LINE_FOUND = 257, /* no row passes; *line is the first line whose removal makes some row pass */
    SCREEN_NO_LINE = 258     /* no row passes, whichever single line is removed */
};

/*
 * Which single line of a plain screen is in the way? Answers one of the above, or a refusal: 1 to 7, 8, 9, 17.
 *
 *   table .. root  as in screen_check; nothing is written to them
 *   line           not NULL. Written with SCREEN_LINE_FOUND: the number of the line. Keeps its value otherwise
 *
 * The lines are the conjuncts of the root, counted from 0 as for SCREEN_REFUSED_CONJUNCTS: one that is reached twice is two
 * lines. "Some row" is any row of whole numbers, values half way between two of them, and nulls, so that the
 * call answers SCREEN_ROW_PASSES exactly if screen_rewrite does not answer SCREEN_NOTHING_PASSES. A row passes without
 * a line if all other lines are true of it; without the only line of a screen every row does, so a screen of one line is
 * never answered with SCREEN_NO_LINE. A line that stands twice is never found.
 *
 * The call merges the lines once as they are and, where nothing passes, once for each line left out, up to the one
 * found: at most 129 times, of the slowest screens known some 13 ms. It needs less than 416 KB of stack, and less than 512
 * KB where a column or a record is of type Text.
 */
SCREEN_MUST_USE
uint32_t screen_line_in_the_way(const uint8_t *table, size_t table_len, const uint8_t *records, size_t records_len,
                                const uint8_t *pool, size_t pool_len,
                                const uint8_t *text, size_t text_len, uint64_t used, uint64_t root, uint64_t *line);

/*
 * A row with halves, as the next two calls take it: for each column in the table's order 16 bytes, its whole part and then
 * its half part, each 8 bytes, two's complement, little-endian; and a word of null marks, bit i for column i. The half
 * part is -1, 0 or +1, and the value is the whole part and half of the half part: (3, +1) is three and a half, and
 * so is (4, -1). Whole parts may be any 64-bit numbers, in a Day column too. A null has both parts zero.
 */

/* The answers of screen_show_row. */
enum screen_show_row_answer {
    SCREEN_NO_ROW = 256,   /* no row passes; nothing is written */
    SCREEN_ROW_SHOWN = 257 /* the row written passes */
};

/*
 * Shows one row that passes a plain screen. Answers one of the above, or a refusal: 1 to 7, 8, 9, 17, 14, in this order.
 *
 *   table .. root  as in screen_check; nothing is written to them
 *   row, row_len   the buffer for the row with halves; row_len is in bytes and at least 16 times the number of columns,
 *                  or it is 14. Written with SCREEN_ROW_SHOWN are the first 16 bytes for each column; bytes behind them,
 *                  and with another answer all bytes, keep their values
 *   nulls          not NULL. Written with SCREEN_ROW_SHOWN: the null marks. Keeps its value otherwise
 *
 * SCREEN_NO_ROW is answered exactly if no row of whole numbers, values half way between two of them, and nulls passes:
 * exactly if screen_rewrite answers SCREEN_NOTHING_PASSES. Else the row is this one, after what the equalities carry from
 * column to column:
 *
 *   null     of a column that must be null, and of one that the root does not reach
 *   (v, 0)   where is_in lines say which values it may have: the smallest v in all of their lists that the other lines allow
 *   (v, 0)   else, where it must be v
 *   (v, +1)  else, where it must be v or more, or more than v: half a step above the greatest such v
 *   (v, -1)  else, where it must be v or less, or less than v: half a step below the least such v
 *   (0, +1)  else
 *
 * So a whole number is shown where a list or an equality names it, and otherwise a value half way between two whole
 * numbers, which no other line can exclude: "c0 > 3" shows three and a half, and so do "c0 > 3" and "c0 < 4", which no
 * whole number passes. screen_check_row answers SCREEN_PASSES of the row shown; screen_test_row, which takes whole
 * numbers only, answers SCREEN_TRUE of it if all of its half parts are zero.
 *
 * The call merges the lines once, and looks for the smallest value that all lists of a column allow: of the slowest screen
 * known, 65 lists of 100 values on 64 equal columns, some 20 ms. It needs less than 416 KB of stack, and less than 512 KB
 * where a column or a record is of type Text.
 */
SCREEN_MUST_USE
uint32_t screen_show_row(const uint8_t *table, size_t table_len, const uint8_t *records, size_t records_len,
                         const uint8_t *pool, size_t pool_len,
                         const uint8_t *text, size_t text_len, uint64_t used, uint64_t root,
                         uint8_t *row, size_t row_len, uint64_t *nulls);

/* The answers of screen_check_row. */
enum screen_check_row_answer {
    SCREEN_DOES_NOT_PASS = 256, /* some line is false or unknown of the row */
    SCREEN_PASSES = 257         /* every line is true of the row */
};

/*
 * Does this row with halves pass a plain screen? Answers one of the above, or a refusal: 1 to 7, 8, 9, 17, 18. Writes
 * nothing.
 *
 *   table .. root  as in screen_check
 *   row, row_len   the row with halves; row_len is exactly 16 times the number of columns
 *   nulls          its null marks
 *
 * The row may be anyone's, not only one that screen_show_row wrote. Of a row without halves whose values are within their
 * columns' types the answer is SCREEN_PASSES exactly if screen_test_row answers SCREEN_TRUE.
 *
 * The call needs less than 104 KB of stack, and less than 208 KB where a column or a record is of type Text.
 */
SCREEN_MUST_USE
uint32_t screen_check_row(const uint8_t *table, size_t table_len, const uint8_t *records, size_t records_len,
                          const uint8_t *pool, size_t pool_len,
                          const uint8_t *text, size_t text_len, uint64_t used, uint64_t root,
                          const uint8_t *row, size_t row_len, uint64_t nulls);

/* The answer of screen_slowest. */
enum screen_slowest_answer {
    SCREEN_BUILT = 256 /* the screen stands in the front of table and records */
};

/*
 * Builds, for capacity planning, a screen of Int columns that takes as many passes over its equalities as it has columns:
 * one bound on the first column, and the chain of equalities of neighbours, listed from its far end. Answers SCREEN_BUILT,
 * or a refusal: 19, 11.
 *
 *   columns               2 to 64
 *   table, table_len      written with SCREEN_BUILT: the first `columns` bytes, which are the screen's table
 *   records, records_len  written with SCREEN_BUILT: the first 3 x columns records
 *   root, used            not NULL, and not the same. Written with SCREEN_BUILT: the screen's root, and 3 x columns
 *
 * The screen needs no pool. screen_check accepts it with the table cut to `columns`; screen_rewrite, lent 8 x columns - 2
 * records or more, does not refuse it and makes exactly `columns` passes. That every such screen has in common; the value of
 * the bound, the place of the bound among the lines and the order of the records are this builder's choice.
 *
 * Bytes behind those, and with a refusal all bytes and numbers, keep their values.
 */
SCREEN_MUST_USE
uint32_t screen_slowest(uint64_t columns, uint8_t *table, size_t table_len, uint8_t *records, size_t records_len,
                        uint64_t *root, uint64_t *used);

/* ---------------------------------------------------------------------------------------------------- testing a row */

/* The answers of screen_test_row. A row passes on SCREEN_TRUE only. */
enum screen_test_row_answer {
    SCREEN_FALSE = 256,
    SCREEN_UNKNOWN = 257, /* a null, of the row or of a division, stood in the way of an answer */
    SCREEN_TRUE = 258
};

/*
 * What does the screen say of this row, by the three-valued logic of ISO/IEC 9075? Answers one of the above, or a
 * refusal: 1 to 7, 8, 12, 13. Writes nothing.
 *
 *   table .. root  as in screen_check
 *   row, row_len   for each column in the table's order its value, 8 bytes, two's complement, little-endian, within the
 *                  column's type; of a Text column the start and the length of a symbol in the same text, 4 bytes each; 8 zero
 *                  bytes for a null. row_len is 8 times the number of columns
 *   nulls          the null marks: bit i, counted from the lowest, is set if column i is null
 *
 * is_in over the entries a, b, .. is "x = a Or x = b Or ..": true if a value is found; else unknown if x is null or the
 * list holds a null; false of a list without an entry, whatever x is. With nulls_equal null is a value like another, so
 * the answer is true or false: null is found exactly if the list holds one.
 *
 * FloorDivide and Modulus are the two answers of one division: quotient * divisor + remainder is the dividend, the
 * quotient is rounded down, and the remainder has the divisor's sign or is zero. So -7 by 2 has the quotient -4 and the
 * remainder 1, and 7 by -2 has -4 and -1; C's / and % round toward zero and differ where the signs do. Both are null if
 * an input is null, if the divisor is zero, and for -2^63 by -1, whose quotient is beyond 64 bits.
 *
 * The depth of the calls inside follows the depth of the screen; the deepest, a chain of 4,096 records, needs less than
 * 1.5 MB of stack.
 */
SCREEN_MUST_USE
uint32_t screen_test_row(const uint8_t *table, size_t table_len, const uint8_t *records, size_t records_len,
                         const uint8_t *pool, size_t pool_len,
                         const uint8_t *text, size_t text_len, uint64_t used, uint64_t root,
                         const uint8_t *row, size_t row_len, uint64_t nulls);

/* --------------------------------------------------------------------------------------------------- the hedge list */

/*
 * The running tally of a desk: how many rows passed, were false, were unknown. The desk keeps it, begins it with zeros
 * and lends it; only screen_hedge_list writes it.
 */
struct screen_tally {
    uint64_t passed;
    uint64_t is_false;
    uint64_t unknown;
};

/* The answer of screen_hedge_list. */
enum screen_hedge_list_answer {
    SCREEN_HEDGED = 256 /* the list, *tally and *count are written */
};

/*
 * Which rows of a chain pass? Answers SCREEN_HEDGED, or a refusal: 1 to 7, 8, 20, 12, 13, 21, in this order. A refused
 * chain writes nothing and adds nothing, even if its last row alone is refused.
 *
 *   table .. root       as in screen_check
 *   values, values_len  the rows' values, row after row, each row as in screen_test_row: 8 bytes for each row and
 *                       column, or it is 12
 *   nulls, rows         a word of null marks for each row, as in screen_test_row. `rows` is the number of WORDS, so
 *                       that of the chain's rows: at most 1,024; none at all is fine
 *   list, list_len      the buffer for the list; list_len is in bytes, two a place, and there are at least as many
 *                       places as rows. Written with SCREEN_HEDGED are the first 2 * *count bytes: the numbers of the
 *                       rows that pass, ascending, from 0, two bytes each, little-endian. Bytes behind them keep their
 *                       values
 *   tally               not NULL. Written with SCREEN_HEDGED: each sum grows by the rows of the chain in its class
 *   count               not NULL. Written with SCREEN_HEDGED: how many rows passed
 *
 * The class of a row is what screen_test_row answers of it: a row passes on SCREEN_TRUE only. The screen is checked
 * once for the whole chain. 13 is given of the chain if screen_test_row gives it of a row. 21 looks at the sums after
 * adding, also of a chain without rows.
 *
 * `nulls` needs the alignment of uint64_t, `tally` that of its numbers.
 *
 * The call needs less than 128 KB of stack, and less than 384 KB if the screen asks its lists for 4,096 values or more,
 * those of all is_in together. With divisions of divisions its need follows their depth: the deepest screen, 2,046 of
 * them, needs less than 768 KB, and with such lists beside them less than 1,088 KB. Where a column or a record is of type
 * Text it needs less than 1.5 MB, as screen_test_row does.
 */
SCREEN_MUST_USE
uint32_t screen_hedge_list(const uint8_t *table, size_t table_len, const uint8_t *records, size_t records_len,
                           const uint8_t *pool, size_t pool_len,
                           const uint8_t *text, size_t text_len, uint64_t used, uint64_t root,
                           const uint8_t *values, size_t values_len, const uint64_t *nulls, size_t rows,
                           uint8_t *list, size_t list_len, struct screen_tally *tally, uint64_t *count);

/* The answer of both views. */
enum screen_view_answer {
    SCREEN_VIEWED = 256 /* the numbers are written */
};

/*
 * The trader's view: how many rows passed, and how many did not. Answers SCREEN_VIEWED; or 21, and writes nothing, if
 * false and unknown together pass 64 bits, which no tally does that began with zeros and that only screen_hedge_list
 * has written. The two numbers are different ones, and neither is a part of the tally.
 */
SCREEN_MUST_USE
uint32_t screen_trader_view(const struct screen_tally *tally, uint64_t *passed, uint64_t *not_passed);

/* The risk view: those that did not pass are split into false and unknown. Answers SCREEN_VIEWED always. */
SCREEN_MUST_USE
uint32_t screen_risk_view(const struct screen_tally *tally, uint64_t *passed, uint64_t *is_false, uint64_t *unknown);

/* ----------------------------------------------------------------------------------------------------- columns read */

/* The answer of screen_columns_read. */
enum screen_columns_read_answer {
    SCREEN_COLUMNS = 256 /* *columns and *count are written */
};

/*
 * Which columns does the screen read? Answers SCREEN_COLUMNS, or a refusal, 1 to 7.
 *
 *   table .. root  as in screen_check
 *   columns        not NULL. Written with SCREEN_COLUMNS: bit i, counted from the lowest, is set exactly if the root
 *                  reaches a record of column i. Keeps its value with a refusal
 *   count          not NULL, and not the same as columns. Written with SCREEN_COLUMNS: the number of ones in *columns.
 *                  Keeps its value with a refusal
 *
 * The call needs less than 104 KB of stack.
 */
SCREEN_MUST_USE
uint32_t screen_columns_read(const uint8_t *table, size_t table_len, const uint8_t *records, size_t records_len,
                             const uint8_t *pool, size_t pool_len,
                             const uint8_t *text, size_t text_len, uint64_t used, uint64_t root,
                             uint64_t *columns, uint64_t *count);

/* -------------------------------------------------------------------------------------- saving and loading a screen */

/*
 * A saved screen is blocks of 512 bytes:
 *
 *   bytes 0-1   the Internet checksum (RFC 1071) of the block with these two bytes zero, the high byte first
 *   bytes 2-3   the block's number, from 0, little-endian
 *   byte 4      the kind: 1 the column table, 2 records, 3 the pool, 5 the text, 4 the end
 *   bytes 5-6   how many columns, records, values or bytes of text the block holds, little-endian; 1 in the end
 *   bytes 7-15  zero
 *   then        496 bytes of content, those that are not used zero: columns of 1 byte, records of 16, values of 8, text of
 *               1; in the end used and root, 4 bytes each, little-endian
 *
 * There is one block of kind 1, even of no column, then as many of kinds 2, 3 and 5, in this order, as are needed, each
 * full before the next begins and none empty, and one of kind 4. A screen has exactly one file: what loads is, byte for
 * byte, what saving the loaded screen writes.
 */

/* The answer of screen_save. */
enum screen_save_answer {
    SCREEN_SAVED = 256 /* the file is written, *length is its length */
};

/*
 * Writes the file of a screen. Answers SCREEN_SAVED, or a refusal: 1 to 7, then 14.
 *
 *   table .. root   as in screen_check; the used records are saved, not those behind them, the whole pool and the whole
 *                   text
 *   file, file_len  where the file goes; SCREEN_MAX_FILE_BYTES are enough for every screen
 *   length          not NULL. Written with SCREEN_SAVED: the file's length in bytes. Keeps its value with a refusal
 *
 * With SCREEN_SAVED the first *length bytes of file are written, and those behind them keep their values. With a
 * refusal no byte is written. Loading those *length bytes gives the same table, used records, pool, text, used and root.
 */
SCREEN_MUST_USE
uint32_t screen_save(const uint8_t *table, size_t table_len, const uint8_t *records, size_t records_len,
                     const uint8_t *pool, size_t pool_len,
                     const uint8_t *text, size_t text_len, uint64_t used, uint64_t root,
                     uint8_t *file, size_t file_len, uint64_t *length);

/* The answer of screen_load. */
enum screen_load_answer {
    SCREEN_LOADED = 256 /* the screen and the five numbers are written */
};

/*
 * Reads a screen from its file. Answers SCREEN_LOADED, or a refusal: 15, then 14, then 1 to 7 of the screen that the
 * file holds. Nothing is written before all of them are passed.
 *
 *   file, file_len        the whole file and nothing behind it
 *   table, table_len      room for the table: 64 bytes are enough for every screen
 *   records, records_len  room for the records: 16 bytes each, 4,096 are enough
 *   pool, pool_len        room for the pool: 8 bytes a value, 8,192 are enough
 *   text, text_len        room for the text: 8,192 bytes are enough
 *   root, columns, used, values, text_bytes
 *                         not NULL, and five different numbers. Written with SCREEN_LOADED: the root, and how many
 *                         columns, records, values and bytes of text were read. They keep their values with a refusal
 *
 * With SCREEN_LOADED the first *columns bytes of table, 16 * *used of records, 8 * *values of pool and *text_bytes of text
 * are written; the bytes behind them keep their values. The screen is lent to the other calls with these four lengths,
 * *used and *root; screen_check accepts it. With a refusal no byte is written.
 *
 * Since 14 comes before 1 to 7, a file of more than 64 columns, 4,096 records, 8,192 values or 8,192 bytes of text is
 * answered 14 by a host that lends the room above, and 1 or 2 by one that lends more. A file with room for all is never
 * answered 14.
 *
 * The records and the pool lie in pieces in the file, so they are copied for the checks: the call needs less than
 * 224 KB of stack, whatever the screen; saving needs as much as screen_check.
 */
SCREEN_MUST_USE
uint32_t screen_load(const uint8_t *file, size_t file_len, uint8_t *table, size_t table_len, uint8_t *records,
                     size_t records_len, uint8_t *pool, size_t pool_len, uint8_t *text, size_t text_len,
                     uint64_t *root, uint64_t *columns, uint64_t *used, uint64_t *values, uint64_t *text_bytes);

#ifdef __cplusplus
}
#endif

#endif
