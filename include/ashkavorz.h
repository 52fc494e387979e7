/*
 * Ashkavorz: interval and rule calls for a switch box with a ternary memory. Link libtablet.a.
 *
 * Every function takes any numbers and any bytes, ends, and answers as the table below says. None keeps a pointer, allocates,
 * or has state of its own, so calls may run at the same time on memory that is not shared. A refused call changes no byte of
 * the memory it was lent. A pointer may be anything where its length is 0; else it points to that many numbers, aligned as
 * their type is, and memory that a call may write (out, table, rules of read_sheet) overlaps nothing else it is lent.
 *
 * Answers. `no` is 0 where the call is done; the values a, b, c, d are then the call's own, as each declaration says. Else `no`
 * is the refusal's number, and a and b are what is returned with it. What is not used is 0. Where several refusals apply, the
 * lowest number is given; only reading a sheet tests in an order of its own: 21, 6, 20, 4.
 *
 *   no  given exactly when                                             a                         b
 *    1  the width is not 1..16
 *    2  an interval end or open bound does not fit the width
 *    3  low > high, or B - A < 2
 *    4  a list to be written has fewer than 2k numbers of room         k, the words needed
 *       a sheet's records do not fit the bytes lent                    the bytes needed
 *    5  the rule list's length is not a multiple of 21
 *    6  there are more than 256 rules, or a byte after a sheet's 256th line feed
 *    7  a rule is bad                                                  the lowest bad rule       its first bad field
 *    8  the words needed exceed the table's room                       the words needed
 *    9  the stated count of words exceeds the list or the table
 *   10  a counted word is ill formed                                   the lowest such index
 *   11  the header has not 13 bytes
 *   20  a sheet's line is bad                                          the first bad line, from 1   its first bad field
 *   21  a sheet has more than 65,536 bytes
 *
 * Bad fields of a rule, in the order they are tested: 1 flag above 1; 2 protocol not 0 under flag 1; 3 source length above 32;
 * 4 source address bits set beyond its length; 5 and 6 the same for the destination; 7 source low > high; 8 destination
 * low > high; 9 action above 3.
 *
 * Bad fields of a sheet's line: 0 not six fields, or no line feed; 1 protocol; 2 source; 3 destination; 4 source ports;
 * 5 destination ports; 6 action.
 *
 * Words. A word of width n is a value and a mask: a mask bit of 1 means that the bit counts, 0 is a don't care. In a list each
 * word takes two numbers, value then mask.
 *
 * Rules are 21 bytes, numbers big-endian: protocol flag (0 exact, 1 any), protocol, source address (4), its prefix length,
 * destination address (4), its prefix length, source port low and high (2 each), destination port low and high (2 each),
 * action (0 permit, 1 deny, 2 permit and log, 3 deny and log). Headers are 13 bytes: protocol, source address, destination
 * address, source port, destination port. Table records are 28 bytes: value (13, laid out as a header), mask (13), rule number
 * from 0, action. A table has room for its length divided by 28, rounded down, and for at most 2,048 records.
 */
#ifndef ASHKAVORZ_H
#define ASHKAVORZ_H

#include <stddef.h>
#include <stdint.h>

#ifdef __cplusplus
extern "C" {
#endif

/* The sizes and limits above, and the numbers of a list that is always large enough. */
#define ASHKAVORZ_RULE_BYTES 21
#define ASHKAVORZ_RULES_MOST 256
#define ASHKAVORZ_HEADER_BYTES 13
#define ASHKAVORZ_RECORD_BYTES 28
#define ASHKAVORZ_WORDS_MOST 2048
#define ASHKAVORZ_SHEET_BYTES_MOST 65536
#define ASHKAVORZ_LIST_NUMBERS 60

struct ashkavorz_answer {
    uint32_t no, a, b, c, d;
};

/* A walk over an interval's words. To start one: the width, the interval's low and high as next and last, ended 0. */
struct ashkavorz_walk {
    uint32_t width, next, last;
    uint32_t ended; /* 0 not ended, anything else ended */
};

/* no: 0, or the refusal's number (1, 2 or 3). given: 1 a word, 0 no more; value and mask are 0 unless a word was given.
 * walk: the state for the next step; the one handed in, unchanged, unless a word was given. */
struct ashkavorz_step {
    uint32_t no, given, value, mask;
    struct ashkavorz_walk walk;
};

/* The closed interval of the open bounds (a, b), the values strictly between them. -1 and 2^width are ordinary bounds.
 * Done: a low, b high. Refusals 1, 2, 3. */
struct ashkavorz_answer ashkavorz_close(uint32_t width, int32_t a, int32_t b);

/* How many prefix words the interval low..high has. Done: a words. Refusals 1, 2, 3. */
struct ashkavorz_answer ashkavorz_count(uint32_t width, uint32_t low, uint32_t high);

/* Writes the interval's prefix words to the len numbers at out, ascending; later numbers stay as they were.
 * Done: a words. Refusals 1, 2, 3, 4. 2 * (2 * width - 2) numbers are always enough, and 2 for width 1. */
struct ashkavorz_answer ashkavorz_list(uint32_t width, uint32_t low, uint32_t high, uint16_t *out, size_t len);

/* The next word of a walk. An ended walk is never refused: it gives no more and comes back unchanged. */
struct ashkavorz_step ashkavorz_step(struct ashkavorz_walk walk);

/* Checks the first k words of somebody else's list of len numbers against the interval. The words may overlap.
 * Done: a 1 where together they match every value of low..high and no other value of the width; else a 0 and b the smallest
 * value on which they disagree. Refusals 1, 2, 3, 9, 10. (An index of 2^32 or more, which takes a list of more than 16
 * gigabytes, is returned modulo 2^32.) */
struct ashkavorz_answer ashkavorz_check(uint32_t width, uint32_t low, uint32_t high, const uint16_t *list, size_t len, size_t k);

/* Compiles a rule list into a table; bytes after the last record stay as they were. Done: a words. Refusals 5, 6, 7, 8. */
struct ashkavorz_answer ashkavorz_compile(const uint8_t *rules, size_t rules_len, uint8_t *table, size_t table_len);

/* The first rule that matches the header. Done: a 1, b the rule's number from 0, c its action; or a 0 where none matches.
 * Refusals 5, 6, 7, 11. */
struct ashkavorz_answer ashkavorz_find_rule(const uint8_t *rules, size_t rules_len, const uint8_t *header, size_t header_len);

/* The first of the table's k records that matches the header. Done: a 1, b its index, c its rule number, d its action; or a 0
 * where none matches. Refusals 9, 10, 11. */
struct ashkavorz_answer ashkavorz_find_word(const uint8_t *table, size_t table_len, size_t k, const uint8_t *header, size_t header_len);

/* Reads a rule sheet into 21-byte records; bytes after the last record stay as they were. One rule a line, each ended by a line
 * feed, six fields parted by single tabs: protocol (0-255 or *), source and destination as a.b.c.d/len, source and destination
 * ports as low-high, and permit, deny, permit-log or deny-log. Decimal numbers, no leading zeros, nothing else. An empty sheet is
 * good. Done: a rules. Refusals, tested in this order: 21, 6, 20, 4. */
struct ashkavorz_answer ashkavorz_read_sheet(const uint8_t *text, size_t text_len, uint8_t *rules, size_t rules_len);

#ifdef __cplusplus
}
#endif

#endif
