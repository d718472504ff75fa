/*
 * What the link daemon calls in liblink.a: the record test and the disk choice.
 *
 * For both calls:
 *
 * - No pointer is ever null: for a length of 0, pass any valid pointer.
 * - Buffers are lent for the call only: none is kept, and these two calls write none.
 * - The buffers of one call must not overlap each other: the calls are proved for separate slices.
 *   (Since these two only read, one disk lent twice does no harm.)
 * - No pointer needs an alignment beyond its type's; one to bytes needs none.
 * - Any thread may call, since nothing is shared or kept between calls. Nothing may write a buffer
 *   while a call reads it.
 * - After 6 or 7 the place of the next record cannot be found again: drop the link.
 * - A record has at most U + 12 bytes, so that a buffer of U + 12 bytes always holds one.
 * - disk_choice reads only the lengths of the two disks, never their bytes.
 */

#ifndef STANDBY_PAIR_LINK_H
#define STANDBY_PAIR_LINK_H

#include <stddef.h>
#include <stdint.h>

#if SIZE_MAX < UINT64_MAX
#error "liblink.a is for targets with a 64-bit size_t"
#endif

#ifdef __cplusplus
extern "C" {
#endif

/*
 * The record test: is there a record at the head of these bytes?
 *
 * u is the setting U, the bytes in a page and in a block. bytes points to len readable bytes. The
 * test has no M: it passes the kinds of every pair. Which of them this pair's M calls for, 1 and 4
 * up to 4096 memory pages, 8 and 9 above, only the standby judges that reads the record.
 *
 * The answer is one word, number + 256 * kind + 65536 * count:
 *
 *   number  kind    count
 *   1       0       0       U is not a multiple of 64 from 64 to 4096
 *   6       0       0       the header's kind is not 1 to 5, 8 or 9
 *   7       0       0       the header's length is not that kind's
 *   0       0       1 to 4  cut short in the header: the bytes missing of its 4
 *   0       0       1 to n  cut short in the body of n bytes: the bytes missing of the record
 *   0       its     4 + n   a whole record of that kind, with a body of n bytes: the bytes used
 *
 *   kind                     body, little-endian                            its bytes, n
 *   1 PAGE                   epoch 4, page 2, U bytes                       U + 6
 *   2 BLOCK                  epoch 4, block 2, U bytes                      U + 6
 *   3 STATE                  epoch 4, processor state 64                    68
 *   4 COMMIT                 epoch 4, pages 2, blocks 2                     8
 *   5 ACK                    epoch 4                                        4
 *   8 PAGE above M 4096      epoch 4, page 4, U bytes                       U + 8
 *   9 COMMIT above M 4096    epoch 4, pages 4, blocks 4                     12
 *
 * They are judged in this order: 1, fewer than the header's 4 bytes (cut short), 6, 7, fewer bytes
 * than the record's (cut short). Bytes behind the record are not looked at. Nor are the body's
 * fields: only the end that reads the record judges its epoch, numbers and counts. With U in its
 * range, U + 12 bytes are never cut short.
 *
 * Where cut short, call again once the missing bytes have come behind these: with fewer it is cut
 * short again, of the rest; with all of them, or more, it is cut short again only if these were
 * fewer than 4, and then of the body. So a daemon that receives what is missing, and no byte more,
 * tests each record three times: with no byte, with the header and with the whole record.
 */
uint64_t record_test(uint64_t u, const uint8_t *bytes, size_t len);

/* The numbers of a refusal. */
enum {
    RECORD_BAD_U = 1,
    RECORD_BAD_KIND = 6,
    RECORD_BAD_LENGTH = 7
};

/* The kinds of a record. The wide ones are PAGE and COMMIT of a pair with M above 4096. */
enum {
    RECORD_PAGE = 1,
    RECORD_BLOCK = 2,
    RECORD_STATE = 3,
    RECORD_COMMIT = 4,
    RECORD_ACK = 5,
    RECORD_WIDE_PAGE = 8,
    RECORD_WIDE_COMMIT = 9
};

/* Whether a kind is a PAGE, or a COMMIT, of either width. */
static inline int record_is_page(unsigned kind)
{
    return kind == RECORD_PAGE || kind == RECORD_WIDE_PAGE;
}

static inline int record_is_commit(unsigned kind)
{
    return kind == RECORD_COMMIT || kind == RECORD_WIDE_COMMIT;
}

/* The refusal's number, or 0 where nothing is refused. */
static inline unsigned record_number(uint64_t word)
{
    return (unsigned)(word & 255);
}

/* The record's kind, or 0 where no whole record is there. */
static inline unsigned record_kind(uint64_t word)
{
    return (unsigned)(word >> 8 & 255);
}

/* Whether more bytes are wanted before the record can be judged. */
static inline int record_cut_short(uint64_t word)
{
    return (word & 65535) == 0;
}

/* The record's bytes, header and body, or 0 where no whole record is there. */
static inline size_t record_used(uint64_t word)
{
    return record_cut_short(word) ? 0 : (size_t)(word >> 16);
}

/* How many more bytes are wanted: 1 or more where cut short, else 0. */
static inline size_t record_missing(uint64_t word)
{
    return record_cut_short(word) ? (size_t)(word >> 16) : 0;
}

/*
 * The disk choice: from which disk does the guest start again, after both boxes failed?
 *
 * primary and standby point to the bytes of the two disks, area to the record area of the standby's
 * disk. Only the area's bytes are looked at; of the disks only the lengths.
 *
 * The answer is one word:
 *
 *   1       the disks are not equally long, or the area is not 8 bytes
 *   12      the area is neither all zero nor a record of length 4, kind 6
 *   256     the primary's disk: the area is all zero
 *   512     the standby's disk: the area holds an activation, 04 00 06 00 and any epoch
 */
uint64_t disk_choice(const uint8_t *primary, size_t primary_len, const uint8_t *standby,
                     size_t standby_len, const uint8_t *area, size_t area_len);

/* The answers of the disk choice. */
enum {
    DISK_BAD_LENGTH = 1,
    DISK_BAD_AREA = 12,
    DISK_PRIMARY = 256,
    DISK_STANDBY = 512
};

#ifdef __cplusplus
}
#endif

#endif
