/*
 * dairyhour.h: side messages for rows of bits, and the recovery of rows that lost bits.
 *
 * A raster film travels row by row over a line that may drop bits. Beside each row goes a short message that
 * holds sums and checks of the row; from the message and the short row the receiver works out what was sent.
 * This library writes and reads such messages, lists every row that a message and a short row allow, and mends
 * a string that lacks one bit. Its code is proved: every call returns, whatever it is given, and answers as
 * written here.
 *
 * ROWS AND LAYOUTS
 *
 * A layout is four numbers l1, l2, nc, r. A row has n = l1 * l2 * nc bits. It is cut into l1 blocks of l2 * nc
 * bits, and each block into l2 chunks of nc bits. Chunk-string j joins chunk j of every block, in block order,
 * and has nc * l1 bits. A layout is legal if
 *
 *     l1 >= 1, l2 >= 1, 3 <= nc <= 8, l1 * l2 <= 2^nc - 1, and r <= 16.
 *
 * So n is at most 2,040.
 *
 * PACKING
 *
 * Strings of bits are packed into bytes, first bit highest: bit 1 of the string is the bit of value 0x80 in the
 * first byte, bit 9 that of the second. A string of w bits takes w / 8 bytes, rounded up, and no bytes if w is
 * 0. The spare low bits of the last byte are 0; they are always written so, and input in which one is 1 is
 * refused. The three bits 101 are the byte 0xA0.
 *
 * SUMS AND CHECKS
 *
 * The sum of a string of w bits is the total of the positions, counted from 1, of its ones, modulo w + 1: a
 * number from 0 to w (the string's Varshamov-Tenengolts syndrome).
 *
 * A chunk is also a number, first bit highest, and as such an element of the field of 2^nc elements that has
 * the polynomial 11, 19, 37, 67, 137 or 285 (binary numbers written in decimal) for nc = 3, 4, 5, 6, 7 or 8. Check
 * i, from 0 to r - 1, is the field sum over the row's chunks c (from 0, in row order) of 2^(i * c) times
 * chunk c (a Reed-Solomon syndrome). r may be above the number of chunks.
 *
 * THE MESSAGE
 *
 *     bytes 0 to 2    52 53 4D (hexadecimal), the mark "RSM"
 *     bytes 3 and 4   00 01, the version
 *     bytes 5 to 8    l1, l2, nc, r, one byte each
 *     from byte 9     l1 block sums, l2 chunk-string sums, r checks
 *
 * The sums and checks are packed as one string of bits, without gaps, each first bit highest. The sum of a string
 * of w bits takes as many bits as w needs in binary (12 takes 4, 16 takes 5); a check takes nc bits. Spare bits
 * at the end are 0. Layout 5, 3, 4, 4 and the row 4A 50 3E 77 10 24 46 80 have the block sums 10 6 3 4 11, the
 * chunk-string sums 11 20 4, the checks 11 6 13 2, and the message
 *
 *     52 53 4D 00 01 05 03 04 04 A6 34 B5 D0 96 DA 40.
 *
 * THE LIST
 *
 * A received row of m bits comes from a row of n bits by deleting n - m bits if striking out some n - m places of
 * the row leaves the received bits in their order. A row is consistent with a message and a received row if it
 * has the n bits of the message's layout, the received row comes from it by deleting bits, and its own message
 * under that layout equals the given one byte for byte. The list is all consistent rows in dictionary order: of
 * two rows, the one with 0 at the first bit where they differ comes first. None is left out, and none stands
 * there twice. With n - m at most 1 there is at most one row. The row that was sent is on the list of its own
 * message, whichever of its bits, at most 12, were lost.
 *
 * SLICES
 *
 * Memory is lent as a pointer and a length. The length counts elements: bytes, or entries of 16 bits where the
 * pointer is to uint16_t. The library keeps no pointer after a call, holds no state, allocates nothing, and may
 * be called from several threads at once. The caller sees to three things, which nothing can check:
 *
 *   - the pointer leads to as many elements as the length says, aligned for their type;
 *   - it is not NULL, also where the length is 0 (nothing is then read or written through it);
 *   - memory that is lent for writing overlaps no other memory lent to the same call, and nobody else uses
 *     it until the call returns.
 *
 * Numbers may be anything that a size_t holds. Output goes to the start of the target; what lies beyond the
 * output in a longer target stays as it was. Input is never changed.
 *
 * REFUSALS
 *
 * Unfit input is refused by the first number of this table that applies to the operation. After each of these
 * refusals but 9 every slice is as it was before the call.
 *
 *      1   the message is under nine bytes, or has another mark
 *      2   the version is not 1
 *      3   the layout is not legal, or w is outside 1 to 2,040
 *      4   the message has another length than its layout gives
 *      5   a sum is above the length of its string
 *      6   a spare bit of the message is 1
 *      7   more bits were received than the row has, or more than 12 were lost
 *      8   a row or string has another byte count than its bits need, or a spare bit is 1
 *      9   there are more consistent rows than fit whole in the list slice
 *     10   the target is shorter than what is to be written
 */
#ifndef DAIRYHOUR_H
#define DAIRYHOUR_H

#include <stddef.h>
#include <stdint.h>

#ifdef __cplusplus
extern "C" {
#endif

/* Targets of these sizes are never too short. */
#define DH_LONGEST_MESSAGE 154 /* bytes that dh_write writes at most */
#define DH_MOST_FIELDS 272     /* entries that dh_read writes at most */
#define DH_LONGEST_STRING 255  /* bytes that dh_mend writes at most */

/* The bytes of a list slice that dh_list uses at most. A longer slice holds no more rows. */
#define DH_LONGEST_LIST 65536

/* What dh_write, dh_mend and dh_list answer. */
typedef struct {
    uint32_t refusal; /* 0: done; else the number of the refusal */
    size_t value;     /* where refusal is 0, what the operation says; else 0 */
} dh_answer;

/* What dh_read answers: a layout where refusal is 0, else four zeros. */
typedef struct {
    uint32_t refusal; /* 0: read; else the number of the refusal */
    size_t l1, l2, nc, r;
} dh_layout;

/*
 * Writes the message of a row.
 *
 * Takes the layout, the packed row (row_len bytes) and a target (out_len bytes).
 *
 * Answers refusal 0 and, as value, the length of the message in bytes. out then holds the message in its first
 * value bytes; the rest of out is as it was.
 *
 * Refuses, checking in this order:
 *      3   the layout is not legal
 *      8   row_len is not n / 8 rounded up, or a spare bit of the row is 1
 *     10   out_len is below the length of the message
 * Then value is 0 and all of out is as it was.
 */
dh_answer dh_write(size_t l1, size_t l2, size_t nc, size_t r, const uint8_t *row, size_t row_len, uint8_t *out,
                   size_t out_len);

/*
 * Reads a message.
 *
 * Takes the message (msg_len bytes, no more and no fewer than its own) and a target (out_len entries of 16
 * bits).
 *
 * Answers refusal 0 and the layout that the message names. out then holds, in its first l1 + l2 + r entries,
 * the block sums, the chunk-string sums and the checks, in that order, as numbers of the machine's byte order;
 * the rest of out is as it was. Only a message that some legal layout, sums in range and checks give is read;
 * whether a row with these sums and checks exists is not asked.
 *
 * Refuses, checking in this order:
 *      1   msg_len is below nine, or the first three bytes are not 52 53 4D
 *      2   bytes 3 and 4 are not 00 01
 *      3   the layout in bytes 5 to 8 is not legal
 *      4   msg_len is not the length of a message of this layout
 *      5   a block sum is above l2 * nc, or a chunk-string sum above nc * l1
 *      6   a spare bit at the end is 1
 *     10   out_len is below l1 + l2 + r
 * Then l1, l2, nc and r in the answer are 0 and all of out is as it was.
 */
dh_layout dh_read(const uint8_t *msg, size_t msg_len, uint16_t *out, size_t out_len);

/*
 * Mends a string that lacks one bit.
 *
 * Takes the length w of the whole string, 1 to 2,040, its sum, the w - 1 bits that are left of it, packed
 * (bits_len bytes; none if w is 1), and a target (out_len bytes). There is exactly one string of w bits that
 * has this sum and from which these bits come by striking out one bit.
 *
 * Answers refusal 0 and the value 0. out then holds that string, packed, in its first w / 8 bytes, rounded up;
 * the rest of out is as it was. For w = 4 and sum 2, the bits 111 (E0) give the string 1101 (D0).
 *
 * Refuses, checking in this order:
 *      3   w is 0 or above 2,040
 *      5   sum is above w
 *      8   bits_len is not (w - 1) / 8 rounded up, or a spare bit is 1
 *     10   out_len is below w / 8 rounded up
 * Then value is 0 and all of out is as it was.
 */
dh_answer dh_mend(size_t w, size_t sum, const uint8_t *bits, size_t bits_len, uint8_t *out, size_t out_len);

/*
 * Lists the rows that are consistent with a message and a received row.
 *
 * Takes the message (msg_len bytes, no more and no fewer than its own), the received row, packed (row_len
 * bytes; none if m is 0), the number m of its bits, and a list slice (out_len bytes, of which only the first
 * 65,536 are used). n - m bits were lost, at most 12.
 *
 * Answers refusal 0 and, as value, the number of consistent rows. out then holds them from its start, packed one
 * after another in dictionary order, n / 8 bytes each, rounded up; the rest of out is as it was. A value of 0 is
 * an ordinary answer: no row is consistent, and all of out is as it was. The answer and every byte of out depend
 * on msg, row, m and out alone, so the same call gives the same list at any time.
 *
 * Refuses, checking in this order:
 *      1   msg_len is below nine, or the first three bytes are not 52 53 4D
 *      2   bytes 3 and 4 are not 00 01
 *      3   the layout in bytes 5 to 8 is not legal
 *      4   msg_len is not the length of a message of this layout
 *      5   a block sum is above l2 * nc, or a chunk-string sum above nc * l1
 *      6   a spare bit at the end of the message is 1
 *      7   m is above n, or n - m is above 12
 *      8   row_len is not m / 8 rounded up, or a spare bit of the row is 1
 *      9   there are more consistent rows than fit whole in out, or in its first 65,536 bytes
 * Then value is 0. After 9, out holds as many of the first consistent rows as fit, in order, and the rest of it is
 * as it was; after the others all of out is as it was.
 *
 * Layout 2, 1, 4, 0, block sums 2 and 0 and chunk-string sum 2 (the message 52 53 4D 00 01 02 01 04 00 40 80) with
 * the six bits 001111 (3C) give the value 2 and the bytes 36 39; with out_len 1 they give refusal 9 and the byte 36.
 *
 * A call takes at most this much of the calling thread's stack, by the blocks of the layout; what the start of the
 * thread takes is counted, and at least one sixteenth is left over. As measured: the proofs do not cover stack space.
 *
 *     l1 at most   stack
 *             15     176 KB
 *            127     336 KB
 *            255     528 KB
 */
dh_answer dh_list(const uint8_t *msg, size_t msg_len, const uint8_t *row, size_t row_len, size_t m, uint8_t *out,
                  size_t out_len);

#ifdef __cplusplus
}
#endif

#endif
