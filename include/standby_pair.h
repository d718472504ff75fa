/*
 * The two ends of a standby pair, as a host calls them in libcapi.a; and the normal form of a
 * checkpoint kept on file, in libfiles.a.
 *
 * The primary end holds the guest's memory and disk and makes checkpoints of them; the standby end
 * receives these and takes over. Every call is proved to do what document 01 says, with the jobs of
 * document 02 that have landed, for any words, lengths and bytes, under what this header asks of
 * the caller:
 *
 * - No pointer is ever null: for a length of 0, pass any valid pointer.
 * - Buffers are lent for the call only, and none is kept.
 * - The buffers of one call, its states among them, must not overlap each other: the calls are
 *   proved for separate slices.
 * - No pointer needs an alignment beyond its type's; one to bytes needs none.
 * - Any thread may call, since nothing is shared or kept between calls. Calls on the same state or
 *   the same buffers must not overlap in time.
 *
 * And of the link between the ends:
 *
 * - standby_read is given a first part of the bytes that drain moved out, in their order, none of
 *   them lost, changed or twice; those that it used are not given again. So is primary_acknowledge
 *   of the replies of accepted COMMITs. What is proved of whole runs is proved of such a link.
 * - After 6 or 7 the place of the next record cannot be found again; 2, 8, 9, 10 and 14 of
 *   standby_read and 11 of primary_acknowledge say that bytes were lost or changed. Drop the link:
 *   it cannot be taken up again, and the pair is started anew.
 * - A record has at most U + 12 bytes: a buffer of U + 12 bytes holds whatever record_test of
 *   link.h, which has no M, asks for. Up to M 4096 standby_read takes none of more than U + 10.
 *
 * pair_disk_choice (and disk_choice of link.h) reads only the lengths of the two disks, never their
 * bytes.
 *
 * The host keeps the states and the buffers, and hands the same ones to every call of their end.
 * Between calls it may read them, and leaves them as they are, but for this: instead of a
 * primary_memory_write it may write the page in memory and set the page's bit in dirty itself, as
 * that call does and no more; and at an active standby it may write memory and disk itself.
 *
 * Lengths are exact. All are counted in elements, of the settings that pair_start was given:
 *
 *   buffer                    element   length             what it holds
 *   settings                  uint64_t  SETTINGS_WORDS     U M D B S Q L T
 *   primary's state           uint64_t  PRIMARY_WORDS
 *   standby's state           uint64_t  STANDBY_WORDS
 *   first, pending, processor uint8_t   PROCESSOR_BYTES    a processor state; passed without length
 *   memory (of each end)      uint8_t   M * U              page p from byte p * U on
 *   disk (of each end)        uint8_t   D * U              block b from byte b * U on
 *   dirty                     uint64_t  MARK_WORDS(M)      page p: bit p mod 64 of word p div 64;
 *                                                          bits past M are ignored and kept
 *   held                      uint8_t   Q                  packets of all ports, oldest first
 *   stream                    uint8_t   L                  the records that wait for drain
 *   staged_pages              uint8_t   M * U              pages of the checkpoint under way
 *   staged_marks              uint64_t  MARK_WORDS(M)      which pages these are
 *   staged_blocks             uint8_t   S * U              staged and due blocks, oldest first
 *   area                      uint8_t   AREA_BYTES         the record area of the standby's disk
 *   order                     uint64_t  M                  each page number below M once
 *   bytes, destination, reply uint8_t   any
 *   file                      uint8_t   any                one checkpoint, from its first record to
 *                                                          its COMMIT
 *
 * A state is words (and, for the standby, pending and processor). Words that are no state are
 * refused with 1, and nothing is changed: their count is not exact; T, the count of ticks or an
 * epoch (open, acknowledged, received, of any of the 64 packets) is not below 2^32; the length or
 * the port of any of the 64 packets, or any of a primary's 64 block numbers, is not below 2^16;
 * alone or STATE seen is above 1; the mode is above 2. All other words are taken as they are, and
 * the ranges of a state in documents 01 and 02 are then judged, with 1 too.
 */

#ifndef STANDBY_PAIR_H
#define STANDBY_PAIR_H

#include <stddef.h>
#include <stdint.h>

#include "link.h" /* the kinds of records; its two functions are in liblink.a */

#if SIZE_MAX < UINT64_MAX
#error "libcapi.a is for targets with a 64-bit size_t"
#endif

#ifdef __cplusplus
extern "C" {
#endif

/* ---- The answer of a call: one word. ---- */

/* The documents' numbers. Every call says below which it gives, in the order of its tests. */
enum {
    NUMBER_ACCEPTED = 0,
    NUMBER_OUT_OF_RANGE = 1,    /* a setting, a lent length or a state is out of its range, or an
                                   order of pages does not name each page once */
    NUMBER_NO_SUCH_UNIT = 2,    /* page number not below M, block not below D */
    NUMBER_BAD_SIZE = 3,        /* a memory write empty or past its page, block data not U bytes */
    NUMBER_BAD_PACKET = 4,      /* a packet not of 1 to 1514 bytes */
    NUMBER_NO_ROOM = 5,         /* reply under 8 bytes, or destination shorter than the packet */
    NUMBER_BAD_KIND = 6,        /* the record's kind is not for this end or a file: drop the link */
    NUMBER_BAD_LENGTH = 7,      /* the record's length is not its kind's: drop the link */
    NUMBER_BAD_EPOCH = 8,       /* the record's epoch is not the last received plus 1, or in a file
                                   not its first record's */
    NUMBER_OUT_OF_ORDER = 9,    /* the record is out of order in its checkpoint */
    NUMBER_BAD_COUNTS = 10,     /* COMMIT's counts differ from those received */
    NUMBER_BAD_ACK = 11,        /* the ACK is old, or of an epoch not yet closed */
    NUMBER_BAD_AREA = 12,       /* the record area is neither zero nor an activation */
    NUMBER_WRONG_MODE = 13,     /* alone, not receiving, not taking over, or not active */
    NUMBER_ALLOWANCE_USED = 14, /* the epoch has B other blocks already, or MOST_RECORDS BLOCKs */
    NUMBER_STREAM_FULL = 15,    /* the stream lacks the bytes needed */
    NUMBER_QUEUE_FULL = 16,     /* 64 packets are held, or Q would be passed */
    NUMBER_SLOTS_FULL = 17,     /* S blocks are staged, and this epoch has not staged this one */
    NUMBER_NOTHING_FREE = 18,   /* no packet of the port may be handed out */
    NUMBER_LAST_EPOCH = 19,     /* the open epoch is 4294967295 */
    NUMBER_BLOCKS_DUE = 20,     /* blocks are still due at activation */
    NUMBER_NO_SUCH_PORT = 23,   /* the port is above MOST_PORT */
    NUMBER_BYTES_BEHIND = 29,   /* the file has bytes behind its COMMIT */
    NUMBER_DESTINATION_SHORT = 30, /* the destination is shorter than the normal form */
    NUMBER_CUT_SHORT = 256      /* ours: some of the record is missing, see answer_missing */
};

/* 0 where the call is accepted, NUMBER_CUT_SHORT, or why it is refused. */
static inline unsigned answer_number(uint64_t answer)
{
    return (unsigned)(answer & 65535);
}

/* The call's value; 0 where it is refused or cut short. */
static inline uint32_t answer_value(uint64_t answer)
{
    return (uint32_t)(answer >> 32);
}

/* Whether more bytes are wanted before the record can be judged. */
static inline int answer_cut_short(uint64_t answer)
{
    return answer_number(answer) == NUMBER_CUT_SHORT;
}

/* How many bytes the record of standby_read or primary_acknowledge used; 0 in all other answers. */
static inline size_t answer_used(uint64_t answer)
{
    return answer_cut_short(answer) ? 0 : (size_t)(answer >> 16 & 65535);
}

/* How many more bytes are wanted, counted as record_missing of link.h does; 0 if not cut short. */
static inline size_t answer_missing(uint64_t answer)
{
    return answer_cut_short(answer) ? (size_t)(answer >> 16 & 65535) : 0;
}

/* ---- Settings, lengths and limits. ---- */

/* Where each setting stands. */
enum {
    SETTING_U = 0, /* bytes in a page and in a block: 64 to 4096, a multiple of 64 */
    SETTING_M = 1, /* memory pages: 1 to 65536 */
    SETTING_D = 2, /* disk blocks: 0 to 4096 */
    SETTING_B = 3, /* different blocks allowed per epoch: 0 to 64 */
    SETTING_S = 4, /* block slots staged at the standby: B to 64 */
    SETTING_Q = 5, /* bytes of held packets: 0 to 32768 */
    SETTING_L = 6, /* bytes of outgoing stream: LEAST_STREAM(U, M, B) to 536870912 */
    SETTING_T = 7, /* ticks of patience: 1 to 60000 */
    SETTINGS_WORDS = 8
};

enum {
    PROCESSOR_BYTES = 64,
    AREA_BYTES = 8,
    MOST_PACKETS = 64,
    MOST_PACKET_BYTES = 1514,
    MOST_PORT = 3, /* ports are 0 to 3: four network cards */
    MOST_SLOTS = 64,
    MOST_BLOCKS = 64,     /* different blocks of an epoch: the largest B */
    MOST_RECORDS = 65535, /* BLOCKs of an epoch, those of a block written again too */

    /*
     * Whole records: a BLOCK has U + UNIT_RECORD bytes, and so has a PAGE of kind 1. Above
     * MOST_NARROW_PAGES pages PAGE and COMMIT are of kinds 8 and 9: a PAGE has U +
     * WIDE_PAGE_RECORD bytes, a COMMIT WIDE_COMMIT_RECORD.
     */
    UNIT_RECORD = 10,
    STATE_RECORD = 72,
    COMMIT_RECORD = 12,
    ACK_RECORD = 8,
    WIDE_PAGE_RECORD = 12,
    WIDE_COMMIT_RECORD = 16,
    MOST_NARROW_PAGES = 4096
};

/*
 * The bytes of a PAGE, the longest record of this pair, and of a COMMIT, for m pages of u bytes.
 * The unary + lets u and m be constants of any enum; m is evaluated more than once.
 */
#define PAGE_BYTES(u, m) ((u) + ((m) > +MOST_NARROW_PAGES ? +WIDE_PAGE_RECORD : +UNIT_RECORD))
#define COMMIT_BYTES(m) ((m) > +MOST_NARROW_PAGES ? +WIDE_COMMIT_RECORD : +COMMIT_RECORD)

/* Words of dirty marks, and of staged marks, for m pages. */
#define MARK_WORDS(m) (((m) + 63) / 64)

/*
 * The least L: a checkpoint of every page, with B different blocks, each written once. An epoch in
 * which blocks are written again may need more: 15 is then given until drain has made the space.
 */
#define LEAST_STREAM(u, m, b) \
    ((m) * PAGE_BYTES(u, m) + (b) * ((u) + +UNIT_RECORD) + STATE_RECORD + COMMIT_BYTES(m))

/* ---- The states, word by word. ---- */

/*
 * A primary. Its packet i begins at word PRIMARY_PACKETS + i * PACKET_WORDS. Its first
 * PRIMARY_BLOCKS block numbers are those of the open epoch, in the order in which these blocks were
 * first written; the others mean nothing.
 */
enum {
    PRIMARY_U = 0,
    PRIMARY_M = 1,
    PRIMARY_D = 2,
    PRIMARY_B = 3,
    PRIMARY_Q = 4,
    PRIMARY_L = 5,
    PRIMARY_T = 6,
    PRIMARY_TICKS = 7,        /* ticks counted */
    PRIMARY_EPOCH = 8,        /* the open epoch */
    PRIMARY_ACKNOWLEDGED = 9, /* the last acknowledged epoch */
    PRIMARY_ALONE = 10,       /* 1 when alone, else 0 */
    PRIMARY_BLOCKS = 11,      /* different blocks written in the open epoch */
    PRIMARY_RECORDS = 12,     /* BLOCKs of the open epoch, those of a block written again too */
    PRIMARY_WAITING = 13,     /* bytes of the stream that wait for drain */
    PRIMARY_HELD_PACKETS = 14,
    PRIMARY_HELD_BYTES = 15,
    PRIMARY_PACKETS = 16,     /* MOST_PACKETS packets of PACKET_WORDS words, oldest first */
    PRIMARY_WRITTEN = 208,    /* MOST_BLOCKS numbers of blocks written */
    PRIMARY_WORDS = 272,

    PACKET_EPOCH = 0,         /* the words of a packet */
    PACKET_LENGTH = 1,
    PACKET_PORT = 2,
    PACKET_WORDS = 3
};

/* A standby, besides its two processor states. */
enum {
    STANDBY_U = 0,
    STANDBY_M = 1,
    STANDBY_D = 2,
    STANDBY_B = 3,
    STANDBY_S = 4,
    STANDBY_T = 5,
    STANDBY_TICKS = 6,       /* ticks counted */
    STANDBY_MODE = 7,        /* MODE_RECEIVING, MODE_TAKING_OVER or MODE_ACTIVE */
    STANDBY_RECEIVED = 8,    /* the last received epoch */
    STANDBY_STAGED = 9,      /* blocks staged, those that are due among them */
    STANDBY_DUE = 10,        /* blocks that are due */
    STANDBY_SLOTS = 11,      /* MOST_SLOTS block numbers, oldest first */
    STANDBY_BLOCKS = 75,     /* different blocks of the checkpoint under way */
    STANDBY_RECORDS = 76,    /* its BLOCKs, those of a block that came again too */
    STANDBY_PAGES = 77,      /* PAGEs of the checkpoint under way */
    STANDBY_NEXT_PAGE = 78,  /* the least page number that may come next */
    STANDBY_STATE_SEEN = 79, /* 1 once its STATE has come, else 0 */
    STANDBY_WORDS = 80
};

enum {
    MODE_RECEIVING = 0,
    MODE_TAKING_OVER = 1,
    MODE_ACTIVE = 2
};

/* ---- Start. ----
 *
 * Copies the primary's memory, disk and first processor state to the standby, clears both ends' M
 * marks and the record area, and opens epoch 1: checkpoint 0, already received and acknowledged.
 * Gives 1. Value 0.
 *
 * Changes: dirty, standby_memory, standby_disk, staged_marks, area, primary, standby, pending (64
 * zeros) and processor; what the last four held before does not matter. Where it is refused: both
 * states and both processor states become wholly zero, a state that every later call refuses with
 * 1, and nothing else is changed. Only where the words of the settings or of a state are not of
 * their count is nothing changed at all.
 *
 * Where the two ends are in two boxes, start is made in one of them with the buffers of both, and
 * the standby's part of it (standby, pending, processor and the six buffers of the standby) is
 * carried over.
 */
uint64_t pair_start(const uint64_t *settings, size_t settings_len, const uint8_t *first,
                    const uint8_t *memory, size_t memory_len, const uint8_t *disk, size_t disk_len,
                    uint64_t *dirty, size_t dirty_len, const uint8_t *held, size_t held_len,
                    const uint8_t *stream, size_t stream_len, uint8_t *standby_memory,
                    size_t standby_memory_len, uint8_t *standby_disk, size_t standby_disk_len,
                    const uint8_t *staged_pages, size_t staged_pages_len, uint64_t *staged_marks,
                    size_t staged_marks_len, const uint8_t *staged_blocks,
                    size_t staged_blocks_len, uint8_t *area, size_t area_len, uint64_t *primary,
                    size_t primary_len, uint64_t *standby, size_t standby_len, uint8_t *pending,
                    uint8_t *processor);

/* ---- The primary's calls. ----
 *
 * A refused call, and one that is cut short, leaves the state and every buffer as before; its value
 * is 0. An accepted one changes the buffers that its line "Changes" names, and no other.
 */

/*
 * Memory write: 1 to U bytes inside one page, which becomes dirty even if its bytes are equal.
 * Gives 1 2 3. Value: the open epoch. Changes: memory, dirty.
 */
uint64_t primary_memory_write(uint64_t *state, size_t state_len, uint8_t *memory,
                              size_t memory_len, uint64_t *dirty, size_t dirty_len, size_t page,
                              size_t offset, const uint8_t *bytes, size_t bytes_len);

/*
 * Disk write: one block, U bytes, stored on the disk, and a BLOCK appended to the stream. A block
 * written before in the open epoch takes no more of the allowance B, but a BLOCK is appended each
 * time. When alone nothing is appended or counted.
 * Gives 1 2 3 14 15, when alone no 14 and 15. 14: the epoch already has B different blocks and this
 * is another one, or it has MOST_RECORDS BLOCKs. After 14 the guest waits for the next checkpoint,
 * after 15 for drain. Value: the open epoch. Changes: state, disk, stream.
 */
uint64_t primary_disk_write(uint64_t *state, size_t state_len, uint8_t *disk, size_t disk_len,
                            uint8_t *stream, size_t stream_len, size_t block,
                            const uint8_t *bytes, size_t bytes_len);

/*
 * Packet: copied, and held with the open epoch and the port, 0 to MOST_PORT, by which it leaves.
 * Gives 1 4 23 16. After 16 the guest waits until packets have been taken, of whichever port: all
 * ports share the 64 packets and the Q bytes. Value: packets held, of all ports.
 * Changes: state, held.
 */
uint64_t primary_packet(uint64_t *state, size_t state_len, uint8_t *held, size_t held_len,
                        size_t port, const uint8_t *bytes, size_t bytes_len);

/*
 * Checkpoint: appends every dirty page, STATE with this processor state, and COMMIT to the stream;
 * clears the marks; opens the next epoch. COMMIT counts the epoch's PAGEs and BLOCKs, a block
 * written again each time. The guest stands still from the moment of its processor state until the
 * call has returned.
 * Gives 1 13 15 19. After 15, drain and call again: the marks are kept, nothing is lost. Let the
 * guest write no block before that: one that it writes again and again, to which B sets no limit,
 * could take the space that drain makes. Value: the epoch closed. Changes: state, dirty, stream.
 */
uint64_t primary_checkpoint(uint64_t *state, size_t state_len, const uint8_t *memory,
                            size_t memory_len, uint64_t *dirty, size_t dirty_len, uint8_t *stream,
                            size_t stream_len, const uint8_t *processor);

/*
 * Drain: moves the first min(n, waiting, destination_len) bytes of the stream to the head of
 * destination; its later bytes stay. They are cut anywhere, in a record too, and are now the
 * host's to send.
 * Gives 1. Value: bytes moved. Changes: state, stream, destination.
 */
uint64_t primary_drain(uint64_t *state, size_t state_len, uint8_t *stream, size_t stream_len,
                       size_t n, uint8_t *destination, size_t destination_len);

/*
 * ACK: reads one ACK at the head of bytes, which acknowledges all epochs up to its own. Bytes
 * behind it are not looked at.
 * Gives 1 13, cut short (of its header), 6 7, cut short (of its body), 11. Value: its epoch; used:
 * ACK_RECORD; missing: 1 to 4 bytes. Changes: state.
 */
uint64_t primary_acknowledge(uint64_t *state, size_t state_len, const uint8_t *bytes,
                             size_t bytes_len);

/*
 * Take: hands out the port's oldest packet, at the head of destination, if its epoch is
 * acknowledged or the primary is alone; the destination's later bytes stay. MOST_PACKET_BYTES hold
 * any packet. Packets of other ports, older ones too, neither hold it back nor let it go.
 * Gives 1 23 18 5. Value: its length. Changes: state, held, destination.
 */
uint64_t primary_take(uint64_t *state, size_t state_len, uint8_t *held, size_t held_len,
                      size_t port, uint8_t *destination, size_t destination_len);

/*
 * Tick: counts while a closed epoch is unacknowledged; at T the primary is alone (PRIMARY_ALONE),
 * and what waits in the stream is dropped. So it is where T of these ticks pass with no ACK while a
 * checkpoint is under way, though the standby still receives: make them long enough for the largest
 * checkpoint. Alone it lets packets go without a standby: see that the standby cannot take over any
 * more before you take them.
 * Gives 1. Value 0. Changes: state.
 */
uint64_t primary_tick(uint64_t *state, size_t state_len);

/*
 * Sum: each byte of memory * (its address + 1), added modulo 2^32, pages in rising order. When
 * alone too. The guest writes no memory during the call.
 * Gives 1. Value: the sum, which may be 0. Changes nothing.
 */
uint64_t primary_sum(const uint64_t *state, size_t state_len, const uint8_t *memory,
                     size_t memory_len);

/* ---- The standby's calls. ----
 *
 * The state is state, pending and processor together. pending is the processor state of the last
 * STATE; processor that of the last received checkpoint, with which the guest starts after a
 * takeover. Refused calls are as with the primary.
 */

/*
 * Read: reads one record at the head of bytes; bytes behind it are not looked at. A PAGE or BLOCK
 * is staged. A BLOCK of a block that is staged and not due, which is one of the same epoch, reuses
 * the first such slot: the later bytes at the earlier place. A COMMIT copies the staged pages into
 * memory, keeps the processor state, makes the blocks due and writes the ACK into the first
 * ACK_RECORD bytes of reply, for the host to send back: only then is the checkpoint received. A
 * COMMIT was accepted where the number is 0 and record_is_commit (link.h) holds of the value: its
 * kind is 4 or, with M above 4096, 9.
 * Gives 1 13, cut short (of its header), 6 7, cut short (of its body), 2, 5 (COMMIT only), 8 9 10
 * 14 17. 10 compares COMMIT's count of blocks with the BLOCKs received. 14 is as in a disk write,
 * of the epoch under way; where a slot is reused, 17 is not given. After 17, flush and give the
 * same record again. 6 is given to PAGE and COMMIT of the width that M does not call for (link.h).
 * Value: the record's own kind, 1 to 4, or with M above 4096 8 2 3 9; used: its bytes; missing: 1
 * to 4 bytes of a header, or 1 to U + 6 of a body, U + 8 with M above 4096.
 * Changes: state; by a PAGE staged_pages and staged_marks, by a BLOCK staged_blocks, by a STATE
 * pending, by a COMMIT processor, memory, staged_marks and reply.
 */
uint64_t standby_read(uint64_t *state, size_t state_len, uint8_t *pending, uint8_t *processor,
                      uint8_t *memory, size_t memory_len, uint8_t *staged_pages,
                      size_t staged_pages_len, uint64_t *staged_marks, size_t staged_marks_len,
                      uint8_t *staged_blocks, size_t staged_blocks_len, const uint8_t *bytes,
                      size_t bytes_len, uint8_t *reply, size_t reply_len);

/*
 * Flush: stores min(n, due) due blocks on the disk, in order of arrival, and frees their slots. In
 * any mode. A block that came several times in an epoch is one of them, with its last bytes.
 * Gives 1. Value: blocks stored. Changes: state, staged_blocks, disk.
 */
uint64_t standby_flush(uint64_t *state, size_t state_len, uint8_t *pending, uint8_t *processor,
                       uint8_t *staged_blocks, size_t staged_blocks_len, uint8_t *disk,
                       size_t disk_len, size_t n);

/*
 * Tick: counts while receiving, and the count returns to 0 at each record that standby_read
 * accepts, of whichever kind: at T ticks in a row without one the standby takes over
 * (MODE_TAKING_OVER), and what it has of a checkpoint not wholly received is dropped.
 * Gives 1. Value 0. Changes: state, and at T staged_marks.
 */
uint64_t standby_tick(uint64_t *state, size_t state_len, uint8_t *pending, uint8_t *processor,
                      uint64_t *staged_marks, size_t staged_marks_len);

/*
 * Activation: writes the record with the last received epoch into the area, and the standby is
 * active: memory, disk and processor are that checkpoint's, and the guest starts from them. Store
 * the area with the disk before the guest runs; and see that the primary does not run any more.
 * Gives 1 13 20. After 20, flush. Value: the last received epoch. Changes: state, area.
 */
uint64_t standby_activate(uint64_t *state, size_t state_len, uint8_t *pending, uint8_t *processor,
                          uint8_t *area, size_t area_len);

/*
 * Memory write of the guest at an active standby: 1 to U bytes inside one page.
 * Gives 1 13 2 3. Value: the last received epoch. Changes: memory.
 */
uint64_t standby_memory_write(uint64_t *state, size_t state_len, uint8_t *pending,
                              uint8_t *processor, uint8_t *memory, size_t memory_len, size_t page,
                              size_t offset, const uint8_t *bytes, size_t bytes_len);

/*
 * Disk write of the guest at an active standby: one block, U bytes.
 * Gives 1 13 2 3. Value: the last received epoch. Changes: disk.
 */
uint64_t standby_disk_write(uint64_t *state, size_t state_len, uint8_t *pending,
                            uint8_t *processor, uint8_t *disk, size_t disk_len, size_t block,
                            const uint8_t *bytes, size_t bytes_len);

/*
 * Sum: as primary_sum, of the standby's memory, with the pages added in this order, which names
 * each page once. In any mode. Until the standby is active it is the sum of the last received
 * checkpoint's memory: what primary_sum gives after that checkpoint's call and before the guest's
 * next memory write.
 * Gives 1, also where order is not of M entries, one of them is M or more, or one comes again.
 * Value: the sum, which is the same in every order. Changes nothing.
 */
uint64_t standby_sum(const uint64_t *state, size_t state_len, const uint8_t *pending,
                     const uint8_t *processor, const uint8_t *memory, size_t memory_len,
                     const uint64_t *order, size_t order_len);

/* ---- At either end. ---- */

/*
 * A page's own part of a sum: each byte of this page, of pages of u bytes, * (its address in memory
 * + 1), added modulo 2^32. The parts of all pages, added modulo 2^32, are the sum. So a sum is kept
 * up to date by taking a page's part off before the page is written and adding its part after; and
 * a first sum can be made page by page, the guest writing memory between the calls and not during
 * one, where the parts that are added already are kept up to date so. Not a call of an end: no
 * state is lent.
 * Gives 1 2. 1: u is not a multiple of 64 from 64 to 4096, or memory_len is not that of 1 to 65536
 * pages. 2: page is not below memory_len / u. Value: the part. Changes nothing.
 */
uint64_t pair_page_sum(const uint8_t *memory, size_t memory_len, size_t u, size_t page);

/* ---- A checkpoint kept on file, in libfiles.a. ---- */

/*
 * Normal form: one checkpoint, as drain moved it out, in a form that depends only on what it names.
 * At the head of destination come its BLOCKs, each different block once with its last bytes,
 * rising; its PAGEs; STATE; and COMMIT with the counts of these. All are records of the file's own
 * epoch, and a standby that reads them comes to the same memory, processor state and disk.
 *
 * So two checkpoints of the same epoch and settings have equal normal forms exactly where they name
 * the same pages and blocks, with the same last bytes, and carry the same processor state. A normal
 * form is its own. Keep U M D B with a file: its bytes do not say them.
 *
 * Not a call of an end: no state is lent, and no epoch is expected. A pairing's first checkpoint
 * has no normal form: COPY gives 6. LEAST_STREAM(u, m, b) bytes hold any normal form, and so do as
 * many bytes as the file has. The destination's later bytes stay.
 * Gives 1, where a setting is out of its range; then of each record in turn: cut short (of its
 * header), 6 7, cut short (of its body), 2 8 9 10 14; then 29 30. What is wrong with a record is
 * told before anything of a later one. 8: unlike the epoch of the first record, whatever that is.
 * 10 compares COMMIT's count of blocks with the BLOCKs of the file. 14: a BLOCK of yet another
 * block where B different ones have come, or one BLOCK more than MOST_RECORDS. Cut short: the file
 * ends before its COMMIT does; missing: as in standby_read, of the record under way.
 * Value: the bytes written. Changes: destination; where it is refused or cut short, nothing.
 */
uint64_t pair_normal_form(size_t u, size_t m, size_t d, size_t b, const uint8_t *file,
                          size_t file_len, uint8_t *destination, size_t destination_len);

/* ---- After both boxes fail. ---- */

/*
 * Disk choice: from which disk the guest starts again. An area of zeros means the primary's, an
 * activation record the standby's. The two disks are equally long; their bytes are not read.
 * Gives 1 12. Value: CHOICE_PRIMARY or CHOICE_STANDBY. Changes nothing.
 */
uint64_t pair_disk_choice(const uint8_t *primary, size_t primary_len, const uint8_t *standby,
                          size_t standby_len, const uint8_t *area, size_t area_len);

/* The values of the disk choice. */
enum {
    CHOICE_PRIMARY = 1,
    CHOICE_STANDBY = 2
};

#ifdef __cplusplus
}
#endif

#endif
