/*
 * Both headers in one program, which is C99 and C++ at once: the constants against what
 * tests/calls/FORM.md says, and every call once, at settings that are all different, with the words
 * of the states read by their names; the calls that read a record also with its first bytes only,
 * and with the kinds that are for other settings; those that write or read a block also with the
 * same block again, up to what an epoch may have of it; the sums in every mode, in many orders, and
 * with each thing that they refuse; the normal form of a checkpoint, and each of its numbers.
 *
 * A failing check is printed; the last line is 'N passed, M failed'.
 */

#include <stdio.h>
#include <stdlib.h>
#include <string.h>

#include "link.h"
#include "standby_pair.h"

#define JOINED(a, b) a##b
#define NAMED(line) JOINED(check_, line)
#define STATIC_CHECK(condition) typedef char NAMED(__LINE__)[(condition) ? 1 : -1]

/* FORM.md: "A primary is 272 numbers". */
STATIC_CHECK(PRIMARY_U == 0 && PRIMARY_M == 1 && PRIMARY_D == 2 && PRIMARY_B == 3);
STATIC_CHECK(PRIMARY_Q == 4 && PRIMARY_L == 5 && PRIMARY_T == 6 && PRIMARY_TICKS == 7);
STATIC_CHECK(PRIMARY_EPOCH == 8 && PRIMARY_ACKNOWLEDGED == 9 && PRIMARY_ALONE == 10);
STATIC_CHECK(PRIMARY_BLOCKS == 11 && PRIMARY_RECORDS == 12 && PRIMARY_WAITING == 13);
STATIC_CHECK(PRIMARY_HELD_PACKETS == 14 && PRIMARY_HELD_BYTES == 15 && PRIMARY_PACKETS == 16);
STATIC_CHECK(PACKET_EPOCH == 0 && PACKET_LENGTH == 1 && PACKET_PORT == 2 && PACKET_WORDS == 3);
STATIC_CHECK(PRIMARY_WRITTEN == 208 && PRIMARY_WRITTEN == 16 + 64 * 3);
STATIC_CHECK(PRIMARY_WORDS == 272 && PRIMARY_WORDS == 208 + 64);

/* FORM.md: "A standby is 80 numbers and two processor states". */
STATIC_CHECK(STANDBY_U == 0 && STANDBY_M == 1 && STANDBY_D == 2 && STANDBY_B == 3);
STATIC_CHECK(STANDBY_S == 4 && STANDBY_T == 5 && STANDBY_TICKS == 6 && STANDBY_MODE == 7);
STATIC_CHECK(STANDBY_RECEIVED == 8 && STANDBY_STAGED == 9 && STANDBY_DUE == 10);
STATIC_CHECK(STANDBY_SLOTS == 11 && STANDBY_BLOCKS == 11 + 64 && STANDBY_RECORDS == 76);
STATIC_CHECK(STANDBY_PAGES == 77 && STANDBY_NEXT_PAGE == 78 && STANDBY_STATE_SEEN == 79);
STATIC_CHECK(STANDBY_WORDS == 80);
STATIC_CHECK(MODE_RECEIVING == 0 && MODE_TAKING_OVER == 1 && MODE_ACTIVE == 2);

/* FORM.md: start's "U M D B S Q L T". */
STATIC_CHECK(SETTING_U == 0 && SETTING_M == 1 && SETTING_D == 2 && SETTING_B == 3);
STATIC_CHECK(SETTING_S == 4 && SETTING_Q == 5 && SETTING_L == 6 && SETTING_T == 7);
STATIC_CHECK(SETTINGS_WORDS == 8);

/* Document 01's lengths. */
STATIC_CHECK(MARK_WORDS(1) == 1 && MARK_WORDS(64) == 1 && MARK_WORDS(65) == 2);
STATIC_CHECK(LEAST_STREAM(64, 4, 2) == 528);
STATIC_CHECK(PROCESSOR_BYTES == 64 && AREA_BYTES == 8 && MOST_PACKET_BYTES == 1514);
STATIC_CHECK(MOST_PACKETS == 64 && MOST_SLOTS == 64);
STATIC_CHECK(UNIT_RECORD == 10 && STATE_RECORD == 72 && COMMIT_RECORD == 12 && ACK_RECORD == 8);
STATIC_CHECK(STATE_RECORD <= 64 + UNIT_RECORD);
STATIC_CHECK(RECORD_PAGE == 1 && RECORD_BLOCK == 2 && RECORD_STATE == 3 && RECORD_COMMIT == 4);
STATIC_CHECK(RECORD_ACK == 5);

/* Document 02's Job 7: above M 4096 PAGE is kind 8 and U + 12 bytes, COMMIT kind 9 and 16 bytes. */
STATIC_CHECK(RECORD_WIDE_PAGE == 8 && RECORD_WIDE_COMMIT == 9 && MOST_NARROW_PAGES == 4096);
STATIC_CHECK(WIDE_PAGE_RECORD == 12 && WIDE_COMMIT_RECORD == 16);
STATIC_CHECK(PAGE_BYTES(64, 1) == 74 && PAGE_BYTES(64, 4096) == 74);
STATIC_CHECK(PAGE_BYTES(64, 4097) == 76 && PAGE_BYTES(4096, 65536) == 4108);
STATIC_CHECK(COMMIT_BYTES(1) == 12 && COMMIT_BYTES(4096) == 12);
STATIC_CHECK(COMMIT_BYTES(4097) == 16 && COMMIT_BYTES(65536) == 16);
STATIC_CHECK(MARK_WORDS(4096) == 64 && MARK_WORDS(4097) == 65 && MARK_WORDS(65536) == 1024);

/* Its lower end of L: M(U + 10) + B(U + 10) + 84 up to M 4096, M(U + 12) + B(U + 10) + 88 above. */
STATIC_CHECK(LEAST_STREAM(64, 4096, 2) == 4096 * 74 + 2 * 74 + 84);
STATIC_CHECK(LEAST_STREAM(64, 4097, 2) == 4097 * 76 + 2 * 74 + 88);
STATIC_CHECK(LEAST_STREAM(64, 4097, 0) == 4097 * 76 + 88);
STATIC_CHECK(LEAST_STREAM(4096, 65536, 64) == 269484760);

/* Document 02's Job 6: ports 0 to 3, and 23 above. */
STATIC_CHECK(MOST_PORT == 3 && NUMBER_NO_SUCH_PORT == 23);

/* Document 02's Job 9: an epoch has B different blocks, 64 at most, and 65,535 BLOCKs. */
STATIC_CHECK(MOST_BLOCKS == 64 && MOST_RECORDS == 65535);

/* Document 02's Job 14: bytes behind a file's COMMIT, and a destination too short. */
STATIC_CHECK(NUMBER_BYTES_BEHIND == 29 && NUMBER_DESTINATION_SHORT == 30);

/* The macros take expressions, and are parts of expressions. */
STATIC_CHECK(2 * PAGE_BYTES(32 + 32, 4096 + 1) == 152 && 2 * COMMIT_BYTES(4096 + 1) == 32);
STATIC_CHECK(2 * LEAST_STREAM(32 + 32, 4096 + 1, 1 + 1) == 2 * LEAST_STREAM(64, 4097, 2));

/* Settings with M not a multiple of 64, and no two alike. */
enum { U = 128, M = 70, D = 5, B = 3, S = 7, Q = 300, L = LEAST_STREAM(128, 70, 3), T = 9 };

#define LENT(array) (array), sizeof(array) / sizeof((array)[0])

static const uint64_t settings[SETTINGS_WORDS] = {U, M, D, B, S, Q, L, T};
static uint8_t first[PROCESSOR_BYTES], state_bytes[PROCESSOR_BYTES];

static struct {
    uint64_t state[PRIMARY_WORDS], dirty[MARK_WORDS(M)];
    uint8_t memory[M * U], disk[D * U], held[Q], stream[L];
} p;

static struct {
    uint64_t state[STANDBY_WORDS], staged_marks[MARK_WORDS(M)];
    uint8_t pending[PROCESSOR_BYTES], processor[PROCESSOR_BYTES], memory[M * U], disk[D * U];
    uint8_t staged_pages[M * U], staged_blocks[S * U], area[AREA_BYTES];
} s;

static uint8_t bytes[MOST_PACKET_BYTES], link_bytes[L], reply[ACK_RECORD];
static unsigned passed, failed;

static void check(const char *what, uint64_t is, uint64_t wanted)
{
    if (is == wanted) {
        passed++;
        return;
    }
    failed++;
    printf("FAILED %s: %llu and not %llu\n", what, (unsigned long long)is,
           (unsigned long long)wanted);
}

#define CHECK(is, wanted) check(#is, (is), (wanted))

/* A call's number and value. */
static void check_answer(const char *what, uint64_t answer, unsigned number, uint32_t value)
{
    check(what, answer_number(answer), number);
    check(what, answer_value(answer), value);
    check(what, (uint64_t)answer_cut_short(answer), number == NUMBER_CUT_SHORT);
    check(what, answer_missing(answer) != 0, number == NUMBER_CUT_SHORT);
}

/* A call that is cut short, and a record test: no byte is used, and so many are missing. */
static void check_cut_short(const char *what, uint64_t answer, uint64_t missing)
{
    check_answer(what, answer, NUMBER_CUT_SHORT, 0);
    check(what, answer_missing(answer), missing);
    check(what, answer_used(answer), 0);
}

static void check_word_cut_short(const char *what, uint64_t word, uint64_t missing)
{
    check(what, (uint64_t)record_cut_short(word), 1);
    check(what, record_missing(word), missing);
    check(what, record_used(word), 0);
}

/* What link.h reads from the word of a whole record. */
static void check_word(uint64_t word, unsigned kind, size_t used)
{
    CHECK(record_number(word), 0);
    CHECK(record_kind(word), kind);
    CHECK(record_used(word), used);
    CHECK(record_missing(word), 0);
    CHECK((uint64_t)record_cut_short(word), 0);
}

/* What the headers read from given words. */
static void accessors(void)
{
    uint64_t answer = 0xfedcba9876543210, short_answer = 0xfedcba9876540100;

    CHECK(answer_number(answer), 0x3210);
    CHECK(answer_used(answer), 0x7654);
    CHECK(answer_missing(answer), 0);
    CHECK(answer_value(answer), 0xfedcba98);
    CHECK(answer_number(short_answer), NUMBER_CUT_SHORT);
    CHECK(answer_used(short_answer), 0);
    CHECK(answer_missing(short_answer), 0x7654);
    CHECK(answer_value(short_answer), 0xfedcba98);
    check_cut_short("cut short, 1 missing", 256 + 65536, 1);
    check_cut_short("cut short, 4 missing", 256 + 65536 * 4, 4);
    check_cut_short("cut short, 4102 missing", 256 + 65536 * 4102, 4102);
    check_cut_short("cut short, 4104 missing", 256 + 65536 * 4104, 4104);
    CHECK(answer_missing(UINT64_C(1) << 32 | 74 << 16), 0);
    CHECK(answer_missing(NUMBER_BAD_LENGTH) + answer_used(NUMBER_BAD_LENGTH), 0);

    check_word(65536 * 74 + 256 * 1, RECORD_PAGE, 74);
    check_word(65536 * 4108 + 256 * 8, RECORD_WIDE_PAGE, 4108);
    check_word(65536 * 16 + 256 * 9, RECORD_WIDE_COMMIT, 16);
    check_word_cut_short("a word of cut short, 1 missing", 65536, 1);
    check_word_cut_short("a word of cut short, 4102 missing", 65536 * 4102, 4102);
    check_word_cut_short("a word of cut short, 4104 missing", 65536 * 4104, 4104);
    CHECK(record_missing(RECORD_BAD_KIND) + record_used(RECORD_BAD_KIND), 0);
    CHECK((uint64_t)record_cut_short(RECORD_BAD_KIND), 0);
}

/* Of all kinds that a word can hold, 1 and 8 are a PAGE, 4 and 9 a COMMIT. */
static void kinds(void)
{
    for (unsigned kind = 0; kind < 256; kind++) {
        CHECK(record_is_page(kind) != 0, kind == 1 || kind == 8);
        CHECK(record_is_commit(kind) != 0, kind == 4 || kind == 9);
    }
}

static uint64_t start(const uint64_t *words, size_t count)
{
    return pair_start(words, count, first, LENT(p.memory), LENT(p.disk), LENT(p.dirty),
                      LENT(p.held), LENT(p.stream), LENT(s.memory), LENT(s.disk),
                      LENT(s.staged_pages), LENT(s.staged_marks), LENT(s.staged_blocks),
                      LENT(s.area), LENT(p.state), LENT(s.state), s.pending, s.processor);
}

/* Whether all bytes of an object are this one. */
static int all_are(const void *object, size_t size, uint8_t byte)
{
    const uint8_t *at = (const uint8_t *)object;

    for (size_t i = 0; i < size; i++)
        if (at[i] != byte)
            return 0;
    return 1;
}

static void refused_starts(void)
{
    uint64_t words[SETTINGS_WORDS];

    memset(&p, 0xee, sizeof p);
    memset(&s, 0xee, sizeof s);
    check_answer("a start of 7 settings", start(settings, 7), NUMBER_OUT_OF_RANGE, 0);
    CHECK(all_are(&p, sizeof p, 0xee) && all_are(&s, sizeof s, 0xee), 1);

    memcpy(words, settings, sizeof words);
    words[SETTING_L] = L - 1;
    check_answer("a start with L too small", start(LENT(words)), NUMBER_OUT_OF_RANGE, 0);
    CHECK(all_are(p.state, sizeof p.state, 0) && all_are(s.state, sizeof s.state, 0), 1);
    CHECK(all_are(s.pending, 64, 0) && all_are(s.processor, 64, 0), 1);
    CHECK(all_are(p.dirty, sizeof p.dirty, 0xee) && all_are(s.memory, sizeof s.memory, 0xee), 1);
    check_answer("a tick of no pair", primary_tick(LENT(p.state)), NUMBER_OUT_OF_RANGE, 0);

    memset(p.state, 0xee, sizeof p.state);
    memcpy(words, settings, sizeof words);
    words[SETTING_T] = (UINT64_C(1) << 32) + T;
    check_answer("a start with T of 33 bits", start(LENT(words)), NUMBER_OUT_OF_RANGE, 0);
    CHECK(all_are(p.state, sizeof p.state, 0) && all_are(s.state, sizeof s.state, 0), 1);
}

static void accepted_start(void)
{
    memset(p.memory, 1, sizeof p.memory);
    memset(p.disk, 2, sizeof p.disk);
    memset(first, 3, sizeof first);
    check_answer("start", start(LENT(settings)), 0, 0);
    CHECK(memcmp(p.memory, s.memory, sizeof p.memory) == 0, 1);
    CHECK(memcmp(p.disk, s.disk, sizeof p.disk) == 0, 1);
    CHECK(all_are(s.processor, 64, 3) && all_are(s.pending, 64, 0), 1);
    CHECK(all_are(s.area, 8, 0), 1);

    CHECK(p.state[PRIMARY_U], U);
    CHECK(p.state[PRIMARY_M], M);
    CHECK(p.state[PRIMARY_D], D);
    CHECK(p.state[PRIMARY_B], B);
    CHECK(p.state[PRIMARY_Q], Q);
    CHECK(p.state[PRIMARY_L], L);
    CHECK(p.state[PRIMARY_T], T);
    CHECK(p.state[PRIMARY_EPOCH], 1);
    CHECK(p.state[PRIMARY_ACKNOWLEDGED], 0);
    CHECK(all_are(p.state + PRIMARY_ALONE, (PRIMARY_WORDS - PRIMARY_ALONE) * 8, 0), 1);
    CHECK(s.state[STANDBY_U], U);
    CHECK(s.state[STANDBY_M], M);
    CHECK(s.state[STANDBY_D], D);
    CHECK(s.state[STANDBY_B], B);
    CHECK(s.state[STANDBY_S], S);
    CHECK(s.state[STANDBY_T], T);
    CHECK(s.state[STANDBY_MODE], MODE_RECEIVING);
    CHECK(s.state[STANDBY_RECEIVED], 0);
    CHECK(all_are(s.state + STANDBY_RECEIVED, (STANDBY_WORDS - STANDBY_RECEIVED) * 8, 0), 1);
}

static uint64_t send_packet(size_t port, const uint8_t *packet, size_t length)
{
    return primary_packet(LENT(p.state), LENT(p.held), port, packet, length);
}

static uint64_t take_packet(size_t port)
{
    return primary_take(LENT(p.state), LENT(p.held), port, LENT(bytes));
}

/* A port is compared whole: 4, and numbers that a narrower type would cut to 0 or 1. */
static void no_such_port(void)
{
    static const size_t ports[] = {4, 255, 256, 65536, 65537, (size_t)1 << 32, SIZE_MAX};

    for (size_t i = 0; i < sizeof ports / sizeof ports[0]; i++) {
        check_answer("a packet", send_packet(ports[i], bytes, 1), NUMBER_NO_SUCH_PORT, 0);
        check_answer("a take", take_packet(ports[i]), NUMBER_NO_SUCH_PORT, 0);
    }
    check_answer("no packet", send_packet(4, bytes, 0), NUMBER_BAD_PACKET, 0);
}

/* A packet of 9 bytes by port 3 and one of 11 by port 1. All ports share the Q bytes. */
static void packets(void)
{
    const uint64_t *second = p.state + PRIMARY_PACKETS + PACKET_WORDS;

    check_answer("packet", send_packet(3, state_bytes, 9), 0, 1);
    check_answer("packet", send_packet(1, bytes, 11), 0, 2);
    check_answer("packet", send_packet(0, bytes, Q - 20 + 1), NUMBER_QUEUE_FULL, 0);
    no_such_port();
    CHECK(p.state[PRIMARY_HELD_PACKETS], 2);
    CHECK(p.state[PRIMARY_HELD_BYTES], 20);
    CHECK(p.state[PRIMARY_PACKETS + PACKET_EPOCH], 1);
    CHECK(p.state[PRIMARY_PACKETS + PACKET_LENGTH], 9);
    CHECK(p.state[PRIMARY_PACKETS + PACKET_PORT], 3);
    CHECK(second[PACKET_EPOCH], 1);
    CHECK(second[PACKET_LENGTH], 11);
    CHECK(second[PACKET_PORT], 1);
}

/* The block of this number, all bytes this one. */
static uint64_t write_block(size_t block, uint8_t byte)
{
    uint8_t block_bytes[U];

    memset(block_bytes, byte, sizeof block_bytes);
    return primary_disk_write(LENT(p.state), LENT(p.disk), LENT(p.stream), block,
                              LENT(block_bytes));
}

/* The words about the blocks of the open epoch; nothing but its BLOCKs waits in the stream. */
static void check_written(uint64_t blocks, uint64_t records)
{
    CHECK(p.state[PRIMARY_BLOCKS], blocks);
    CHECK(p.state[PRIMARY_RECORDS], records);
    CHECK(p.state[PRIMARY_WAITING], records * (U + 10));
}

/* Page 65, blocks 4, 2 and 4 again, the two packets, and checkpoint 1. */
static void first_epoch(void)
{
    memset(bytes, 7, sizeof bytes);
    memset(state_bytes, 8, sizeof state_bytes);
    check_answer("memory write", primary_memory_write(LENT(p.state), LENT(p.memory),
                 LENT(p.dirty), 65, U - 5, bytes, 5), 0, 1);
    CHECK(p.dirty[1] & 63, 2);
    CHECK(p.dirty[1] >> 6, UINT64_C(0xeeeeeeeeeeeeeeee) >> 6); /* bits past M are kept */
    check_answer("disk write", write_block(4, 7), 0, 1);
    check_written(1, 1);
    check_answer("disk write", write_block(2, 7), 0, 1);
    check_written(2, 2);
    check_answer("disk write", write_block(4, 9), 0, 1);
    check_written(2, 3);
    CHECK(all_are(p.disk + 4 * U, U, 9) && all_are(p.disk + 2 * U, U, 7), 1);
    packets();
    check_answer("checkpoint", primary_checkpoint(LENT(p.state), LENT(p.memory), LENT(p.dirty),
                 LENT(p.stream), state_bytes), 0, 1);
    CHECK(p.state[PRIMARY_EPOCH], 2);
    CHECK(p.state[PRIMARY_BLOCKS], 0);
    CHECK(p.state[PRIMARY_RECORDS], 0);
    CHECK(p.state[PRIMARY_WRITTEN], 4); /* a checkpoint changes the counts alone */
    CHECK(p.state[PRIMARY_WRITTEN + 1], 2);
    check_answer("tick", primary_tick(LENT(p.state)), 0, 0);
    CHECK(p.state[PRIMARY_TICKS], 1);
    check_answer("take", take_packet(3), NUMBER_NOTHING_FREE, 0);
    check_answer("drain", primary_drain(LENT(p.state), LENT(p.stream), L, LENT(link_bytes)), 0,
                 4 * (U + 10) + 84);
    CHECK(p.state[PRIMARY_WAITING], 0);
}

/* Checkpoint 1 has BLOCKs 4, 2 and 4 again; its normal form BLOCKs 2 and 4. */
enum { FILE_BYTES = 4 * (U + 10) + 84, NORMAL_BYTES = 3 * (U + 10) + 84 };

static uint8_t file_bytes[FILE_BYTES + 1], normal[NORMAL_BYTES + 3];

/* The normal form of so many bytes of the file, into so many of normal, which are 0xee before. */
static uint64_t make_normal(size_t length, size_t room)
{
    memset(normal, 0xee, sizeof normal);
    return pair_normal_form(U, M, D, B, file_bytes, length, normal, room);
}

/* A file that is refused, or cut short: nothing is written. */
static void file_gives(const char *what, size_t length, unsigned number)
{
    check_answer(what, make_normal(length, sizeof normal), number, 0);
    CHECK(all_are(normal, sizeof normal, 0xee), 1);
}

/* The file with one byte of it changed, which is put back. */
static void changed_byte_gives(const char *what, size_t at, uint8_t byte, unsigned number)
{
    uint8_t before = file_bytes[at];

    file_bytes[at] = byte;
    file_gives(what, FILE_BYTES, number);
    file_bytes[at] = before;
}

static void check_unit(size_t at, uint8_t kind, uint8_t number, uint8_t byte)
{
    const uint8_t head[] = {U + 6, 0, kind, 0, 1, 0, 0, 0, number, 0};

    CHECK(memcmp(normal + at, head, sizeof head) == 0, 1);
    CHECK(all_are(normal + at + U + 10 - 5, 5, byte), 1); /* of the page 5 bytes were written */
}

/* "Blocks, then pages, each once with its last bytes, rising, then STATE and COMMIT". */
static void check_normal(void)
{
    static const uint8_t commit[] = {8, 0, 4, 0, 1, 0, 0, 0, 1, 0, 2, 0};

    check_unit(0, RECORD_BLOCK, 2, 7);
    check_unit(U + 10, RECORD_BLOCK, 4, 9);
    check_unit(2 * (U + 10), RECORD_PAGE, 65, 7);
    CHECK(memcmp(normal + 3 * (U + 10), file_bytes + 4 * (U + 10), STATE_RECORD) == 0, 1);
    CHECK(memcmp(normal + NORMAL_BYTES - COMMIT_RECORD, commit, sizeof commit) == 0, 1);
}

/* The settings are compared whole. */
static void settings_of_a_file(void)
{
    static const size_t wrong[][4] = {
        {U + 1, M, D, B}, {0, M, D, B}, {4160, M, D, B}, {U, 0, D, B}, {U, 65537, D, B},
        {U, M, 4097, B}, {U, M, D, 65}, {((size_t)1 << 32) + U, M, D, B}, {U, SIZE_MAX, D, B},
        {U, M, ((size_t)1 << 32) + D, B}, {U, M, D, SIZE_MAX}};

    for (size_t i = 0; i < sizeof wrong / sizeof wrong[0]; i++)
        check_answer("a file with wrong settings",
                     pair_normal_form(wrong[i][0], wrong[i][1], wrong[i][2], wrong[i][3],
                                      file_bytes, FILE_BYTES, LENT(normal)),
                     NUMBER_OUT_OF_RANGE, 0);
    check_answer("a file with M above 4096", /* its BLOCKs pass, its PAGE does not */
                 pair_normal_form(U, 4097, D, B, file_bytes, FILE_BYTES, LENT(normal)),
                 NUMBER_BAD_KIND, 0);
    check_answer("a file with B 1",
                 pair_normal_form(U, M, D, 1, file_bytes, FILE_BYTES, LENT(normal)),
                 NUMBER_ALLOWANCE_USED, 0);
    CHECK(all_are(normal, sizeof normal, 0xee), 1);
}

static void kept_on_file(void)
{
    const size_t second = U + 10, page = 3 * (U + 10), commit = +FILE_BYTES - COMMIT_RECORD;

    memcpy(file_bytes, link_bytes, FILE_BYTES);
    file_gives("an empty file", 0, NUMBER_CUT_SHORT);
    file_gives("a file without its last byte", FILE_BYTES - 1, NUMBER_CUT_SHORT);
    CHECK(answer_missing(make_normal(FILE_BYTES - 1, 0)), 1);
    CHECK(answer_missing(make_normal(page + 4, 0)), U + 6);
    file_gives("a file with a byte more", FILE_BYTES + 1, NUMBER_BYTES_BEHIND);
    changed_byte_gives("an ACK", 2, RECORD_ACK, NUMBER_BAD_KIND);
    changed_byte_gives("a COPY", second + 2, 7, NUMBER_BAD_KIND);
    changed_byte_gives("a wide PAGE", page + 2, RECORD_WIDE_PAGE, NUMBER_BAD_KIND);
    changed_byte_gives("a long BLOCK", 0, U + 7, NUMBER_BAD_LENGTH);
    changed_byte_gives("a block of D", second + 8, D, NUMBER_NO_SUCH_UNIT);
    changed_byte_gives("a page of M", page + 8, M, NUMBER_NO_SUCH_UNIT);
    changed_byte_gives("another epoch", page + 4, 2, NUMBER_BAD_EPOCH);
    changed_byte_gives("a PAGE before a BLOCK", 2, RECORD_PAGE, NUMBER_OUT_OF_ORDER);
    changed_byte_gives("the count of different blocks", commit + 10, 2, NUMBER_BAD_COUNTS);
    settings_of_a_file();
    check_answer("a short destination", make_normal(FILE_BYTES, NORMAL_BYTES - 1),
                 NUMBER_DESTINATION_SHORT, 0);
    CHECK(all_are(normal, sizeof normal, 0xee), 1);
    check_answer("a destination that fits", make_normal(FILE_BYTES, NORMAL_BYTES), 0,
                 NORMAL_BYTES);
    check_answer("a longer destination", make_normal(FILE_BYTES, sizeof normal), 0, NORMAL_BYTES);
    CHECK(all_are(normal + NORMAL_BYTES, 3, 0xee), 1);
    check_normal();
    memcpy(file_bytes, normal, NORMAL_BYTES);
    check_answer("a normal form's own", make_normal(NORMAL_BYTES, NORMAL_BYTES), 0, NORMAL_BYTES);
    CHECK(memcmp(file_bytes, normal, NORMAL_BYTES) == 0, 1);
}

static uint64_t read_bytes(const uint8_t *from, size_t length)
{
    return standby_read(LENT(s.state), s.pending, s.processor, LENT(s.memory),
                        LENT(s.staged_pages), LENT(s.staged_marks), LENT(s.staged_blocks), from,
                        length, LENT(reply));
}

static uint64_t read_at(size_t at, size_t length)
{
    return read_bytes(link_bytes + at, length);
}

/* Only the first bytes of a record have come: so many are missing, and nothing is changed. */
static void read_part(size_t at, size_t length, size_t missing)
{
    static uint8_t before[sizeof s];

    memcpy(before, &s, sizeof s);
    memset(reply, 0xee, sizeof reply);
    check_cut_short("read of a part", read_at(at, length), missing);
    CHECK(memcmp(before, &s, sizeof s) == 0 && all_are(reply, sizeof reply, 0xee), 1);
    check_word_cut_short("test of a part", record_test(U, link_bytes + at, length), missing);
}

/* The first bytes of a record, at several places in its header and in its body. */
static void read_parts(size_t at, size_t length)
{
    read_part(at, 0, 4);
    read_part(at, 1, 3);
    read_part(at, 2, 2);
    read_part(at, 3, 1);
    read_part(at, 4, length - 4);
    read_part(at, 5, length - 5);
    read_part(at, length / 2, length - length / 2);
    read_part(at, length - 1, 1);
}

/* One record of the link: framed by the record test, read, and so many bytes. */
static size_t read_one(size_t at, unsigned kind, size_t length)
{
    uint64_t word = record_test(U, link_bytes + at, sizeof link_bytes - at);
    uint64_t answer;

    CHECK(record_kind(word), kind);
    CHECK(record_used(word), length);
    CHECK(record_missing(word), 0);
    read_parts(at, length);
    answer = read_at(at, record_used(word));
    check_answer("read", answer, 0, kind);
    CHECK(answer_used(answer), length);
    return at + length;
}

/* One record of which no byte more than is missing is received: three calls. */
static size_t read_by_missing(size_t at, size_t length)
{
    size_t part = 0;
    uint64_t answer = 0;

    for (unsigned call = 1; call <= 3; call++) {
        answer = read_at(at, part);
        check("one of three reads", answer_number(answer), call == 3 ? 0 : NUMBER_CUT_SHORT);
        CHECK(record_missing(record_test(U, link_bytes + at, part)), answer_missing(answer));
        part += answer_missing(answer);
    }
    CHECK(answer_used(answer), length);
    return at + answer_used(answer);
}

/* The whole checkpoint so; then the standby is put back as it was. */
static void received_by_missing(void)
{
    static uint8_t before[sizeof s];
    size_t at = 0;

    memcpy(before, &s, sizeof s);
    for (unsigned i = 1; i <= 4; i++) /* three BLOCKs and a PAGE */
        at = read_by_missing(at, U + 10);
    at = read_by_missing(at, STATE_RECORD);
    read_by_missing(at, COMMIT_RECORD);
    CHECK(s.state[STANDBY_RECEIVED], 1);
    memcpy(&s, before, sizeof s);
}

/* The words about the blocks of the epoch under way, none of which is due. */
static void check_staged(uint64_t blocks, uint64_t records)
{
    CHECK(s.state[STANDBY_STAGED], blocks);
    CHECK(s.state[STANDBY_DUE], 0);
    CHECK(s.state[STANDBY_BLOCKS], blocks);
    CHECK(s.state[STANDBY_RECORDS], records);
}

/* Blocks 4, 2 and 4 again: the later bytes are in the first one's slot. */
static size_t read_blocks(size_t at)
{
    at = read_one(at, RECORD_BLOCK, U + 10);
    check_staged(1, 1);
    at = read_one(at, RECORD_BLOCK, U + 10);
    check_staged(2, 2);
    CHECK(all_are(s.staged_blocks, 2 * U, 7), 1);
    at = read_one(at, RECORD_BLOCK, U + 10);
    check_staged(2, 3);
    CHECK(s.state[STANDBY_SLOTS], 4);
    CHECK(s.state[STANDBY_SLOTS + 1], 2);
    CHECK(all_are(s.staged_blocks, U, 9) && all_are(s.staged_blocks + U, U, 7), 1);
    return at;
}

/* A COMMIT counts the BLOCKs: with the count of different blocks it gives 10. */
static void read_commit(size_t at)
{
    static const uint8_t commit1[] = {8, 0, 4, 0, 1, 0, 0, 0, 1, 0, 3, 0};
    uint8_t other[sizeof commit1];

    CHECK(memcmp(link_bytes + at, commit1, sizeof commit1) == 0, 1);
    memcpy(other, commit1, sizeof other);
    other[10] = 2;
    check_answer("a COMMIT of 2 blocks", read_bytes(LENT(other)), NUMBER_BAD_COUNTS, 0);
    read_one(at, RECORD_COMMIT, COMMIT_RECORD);
    CHECK(s.state[STANDBY_BLOCKS], 0);
    CHECK(s.state[STANDBY_RECORDS], 0);
}

static void records(void)
{
    static const uint8_t ack1[] = {4, 0, 5, 0, 1, 0, 0, 0}; /* E3 */
    size_t at = read_blocks(0);

    at = read_one(at, RECORD_PAGE, U + 10);
    CHECK(s.state[STANDBY_PAGES], 1);
    CHECK(s.state[STANDBY_NEXT_PAGE], 66);
    at = read_one(at, RECORD_STATE, STATE_RECORD);
    CHECK(s.state[STANDBY_STATE_SEEN], 1);
    CHECK(all_are(s.pending, 64, 8) && all_are(s.processor, 64, 3), 1);
    read_commit(at);
    CHECK(s.state[STANDBY_RECEIVED], 1);
    CHECK(s.state[STANDBY_DUE], 2);
    CHECK(all_are(s.processor, 64, 8), 1);
    CHECK(memcmp(p.memory, s.memory, sizeof p.memory) == 0, 1);
    CHECK(memcmp(reply, ack1, sizeof ack1) == 0, 1);
}

/* The first bytes of an ACK: so many are missing, and the primary is not changed. */
static void acknowledge_parts(void)
{
    static const size_t missing[ACK_RECORD] = {4, 3, 2, 1, 4, 3, 2, 1};
    static uint64_t before[PRIMARY_WORDS];

    memcpy(before, p.state, sizeof before);
    for (size_t length = 0; length < ACK_RECORD; length++) {
        check_cut_short("part of an ACK", primary_acknowledge(LENT(p.state), reply, length),
                        missing[length]);
        check_word_cut_short("test of it", record_test(U, reply, length), missing[length]);
    }
    CHECK(memcmp(before, p.state, sizeof before) == 0, 1);
}

/* A header that the record test passes is cut short only where its kind is for that end. */
static void headers_of_the_other_end(void)
{
    static const uint8_t ack_header[] = {4, 0, 5, 0};

    check_word_cut_short("a BLOCK's header", record_test(U, link_bytes, 4), U + 6);
    check_answer("a BLOCK's header at the primary",
                 primary_acknowledge(LENT(p.state), link_bytes, 4), NUMBER_BAD_KIND, 0);
    check_word_cut_short("an ACK's header", record_test(U, LENT(ack_header)), 4);
    check_answer("an ACK's header at the standby", read_bytes(LENT(ack_header)), NUMBER_BAD_KIND,
                 0);
}

/* Bytes that begin a record of a kind that is for neither end: 6, and the standby stays. */
static void refused_by_both(const uint8_t *from, size_t length)
{
    static uint8_t before[sizeof s];

    memcpy(before, &s, sizeof s);
    check_answer("a kind of another M", read_bytes(from, length), NUMBER_BAD_KIND, 0);
    CHECK(memcmp(before, &s, sizeof s) == 0, 1);
    check_answer("a kind of the standby", primary_acknowledge(LENT(p.state), from, length),
                 NUMBER_BAD_KIND, 0);
}

/*
 * A record of the wide kind with a body of so many bytes, and more bytes behind it. The record test
 * passes it, since it has no M. The standby, with its M of 70, refuses it by its header. With the
 * length that the narrow kind has, the record test gives 7, and the standby 6 as before.
 */
static void wide_record(uint8_t kind, uint8_t body, uint8_t narrow_body)
{
    uint8_t record[U + 13] = {body, 0, kind, 0};
    const size_t length = 4 + (size_t)body;
    const uint64_t word = 65536 * (uint64_t)length + 256 * kind;

    for (size_t part = 0; part < 4; part++)
        check_word_cut_short("part of a header", record_test(U, record, part), 4 - part);
    check_word_cut_short("a wide header", record_test(U, record, 4), body);
    check_word_cut_short("a wide record but one byte", record_test(U, record, length - 1), 1);
    CHECK(record_test(U, record, length), word);
    CHECK(record_test(U, LENT(record)), word);
    refused_by_both(record, 4);
    refused_by_both(record, length);

    record[0] = narrow_body;
    CHECK(record_test(U, LENT(record)), RECORD_BAD_LENGTH);
    refused_by_both(LENT(record));
}

/* A PAGE and a COMMIT for M above 4096; and the narrow ones with the lengths of these. */
static void wide_records(void)
{
    static const uint8_t page[] = {U + 8, 0, RECORD_PAGE, 0}, commit[] = {12, 0, RECORD_COMMIT, 0};

    wide_record(RECORD_WIDE_PAGE, U + 8, U + 6);
    wide_record(RECORD_WIDE_COMMIT, 12, 8);
    CHECK(record_test(U, LENT(page)), RECORD_BAD_LENGTH);
    CHECK(record_test(U, LENT(commit)), RECORD_BAD_LENGTH);
    check_answer("a long PAGE", read_bytes(LENT(page)), NUMBER_BAD_LENGTH, 0);
    check_answer("a long COMMIT", read_bytes(LENT(commit)), NUMBER_BAD_LENGTH, 0);
}

static void acknowledged(void)
{
    uint64_t answer = primary_acknowledge(LENT(p.state), LENT(reply));

    check_answer("ACK", answer, 0, 1);
    CHECK(answer_used(answer), ACK_RECORD);
    CHECK(p.state[PRIMARY_ACKNOWLEDGED], 1);
    CHECK(p.state[PRIMARY_TICKS], 0);
    check_answer("ACK again", primary_acknowledge(LENT(p.state), LENT(reply)), NUMBER_BAD_ACK, 0);
}

/* Port 1's packet leaves from behind port 3's, for which a destination of 10 would be enough. */
static void taken_by_port(void)
{
    check_answer("take", take_packet(0), NUMBER_NOTHING_FREE, 0);
    check_answer("take", primary_take(LENT(p.state), LENT(p.held), 1, bytes, 10), NUMBER_NO_ROOM,
                 0);
    memset(bytes, 0xee, sizeof bytes);
    check_answer("take", take_packet(1), 0, 11);
    CHECK(all_are(bytes, 11, 7) && all_are(bytes + 11, sizeof bytes - 11, 0xee), 1);
    CHECK(all_are(p.held, 9, 8), 1);
    CHECK(p.state[PRIMARY_HELD_PACKETS], 1);
    CHECK(p.state[PRIMARY_HELD_BYTES], 9);
    CHECK(p.state[PRIMARY_PACKETS + PACKET_PORT], 3);
    CHECK(all_are(p.state + PRIMARY_PACKETS + PACKET_WORDS, PACKET_WORDS * 8, 0), 1);
    check_answer("take", take_packet(1), NUMBER_NOTHING_FREE, 0);
    check_answer("take", take_packet(3), 0, 9);
    CHECK(all_are(bytes, 9, 8), 1);
}

/* ---- The same block again and again: each test leaves both ends as they were. ---- */

static uint8_t primary_before[sizeof p], standby_before[sizeof s];

static void keep_ends(void)
{
    memcpy(primary_before, &p, sizeof p);
    memcpy(standby_before, &s, sizeof s);
}

static void put_ends_back(void)
{
    memcpy(&p, primary_before, sizeof p);
    memcpy(&s, standby_before, sizeof s);
}

static uint64_t tick_standby(void)
{
    return standby_tick(LENT(s.state), s.pending, s.processor, LENT(s.staged_marks));
}

static uint64_t flush(size_t n)
{
    return standby_flush(LENT(s.state), s.pending, s.processor, LENT(s.staged_blocks),
                         LENT(s.disk), n);
}

/* A BLOCK of epoch 1, all bytes of the block this one. */
static uint64_t read_block(uint8_t block, uint8_t byte)
{
    uint8_t record[U + 10] = {U + 6, 0, RECORD_BLOCK, 0, 1, 0, 0, 0, block, 0};

    memset(record + 10, byte, U);
    return read_bytes(LENT(record));
}

static const uint8_t some_blocks[B] = {4, 0, 2}; /* B different ones */

/* With B different blocks another one gives 14, and each of them may be written again. */
static void written_at_the_allowance(void)
{
    keep_ends();
    for (size_t i = 0; i < B; i++)
        check_answer("a block", write_block(some_blocks[i], 5), 0, 1);
    check_answer("a block above B", write_block(1, 5), NUMBER_ALLOWANCE_USED, 0);
    for (size_t i = 0; i < B; i++)
        check_answer("a block again", write_block(some_blocks[i], 6), 0, 1);
    check_answer("a block above B", write_block(3, 5), NUMBER_ALLOWANCE_USED, 0);
    check_written(B, 2 * B);
    for (size_t i = 0; i < B; i++) {
        CHECK(p.state[PRIMARY_WRITTEN + i], some_blocks[i]);
        CHECK(all_are(p.disk + some_blocks[i] * U, U, 6), 1);
    }
    CHECK(all_are(p.state + PRIMARY_WRITTEN + B, (PRIMARY_WORDS - PRIMARY_WRITTEN - B) * 8, 0), 1);
    CHECK(all_are(p.disk + U, U, 2) && all_are(p.disk + 3 * U, U, 2), 1);
    put_ends_back();
}

/* A BLOCK is appended each time: without the space 15 is given, after 14; alone neither of them. */
static void written_without_space(void)
{
    keep_ends();
    for (size_t i = 0; i < B; i++)
        check_answer("a block", write_block(some_blocks[i], 5), 0, 1);
    p.state[PRIMARY_WAITING] = L - (U + 10) + 1;
    check_answer("a block again", write_block(4, 6), NUMBER_STREAM_FULL, 0);
    check_answer("a block above B", write_block(1, 6), NUMBER_ALLOWANCE_USED, 0);
    p.state[PRIMARY_WAITING] = L - (U + 10);
    check_answer("a block again", write_block(4, 6), 0, 1);
    CHECK(p.state[PRIMARY_WAITING], L);
    CHECK(p.state[PRIMARY_RECORDS], B + 1);
    p.state[PRIMARY_ALONE] = 1;
    check_answer("a block above B when alone", write_block(1, 6), 0, 1);
    CHECK(p.state[PRIMARY_BLOCKS], B);
    CHECK(p.state[PRIMARY_RECORDS], B + 1);
    put_ends_back();
}

/* Words of a primary with so many BLOCKs: 14 at MOST_RECORDS, whatever the block, above it 1. */
static void written_at_most_records(void)
{
    keep_ends();
    check_answer("a block", write_block(4, 5), 0, 1);
    p.state[PRIMARY_RECORDS] = MOST_RECORDS - 1;
    check_answer("BLOCK 65535", write_block(4, 6), 0, 1);
    CHECK(p.state[PRIMARY_RECORDS], MOST_RECORDS);
    check_answer("BLOCK 65536, again", write_block(4, 7), NUMBER_ALLOWANCE_USED, 0);
    check_answer("BLOCK 65536, another", write_block(0, 7), NUMBER_ALLOWANCE_USED, 0);
    CHECK(all_are(p.disk + 4 * U, U, 6), 1);
    check_answer("a tick at 65535 BLOCKs", primary_tick(LENT(p.state)), 0, 0);
    p.state[PRIMARY_RECORDS] = MOST_RECORDS + 1;
    check_answer("a tick at 65536 BLOCKs", primary_tick(LENT(p.state)), NUMBER_OUT_OF_RANGE, 0);
    check_answer("a write at 65536", write_block(4, 7), NUMBER_OUT_OF_RANGE, 0);
    CHECK(p.state[PRIMARY_RECORDS], 65536);
    p.state[PRIMARY_RECORDS] = 0; /* below the blocks: no range is about that */
    p.state[PRIMARY_BLOCKS] = B;
    check_answer("a tick at B blocks", primary_tick(LENT(p.state)), 0, 0);
    p.state[PRIMARY_BLOCKS] = B + 1;
    check_answer("a tick above B blocks", primary_tick(LENT(p.state)), NUMBER_OUT_OF_RANGE, 0);
    put_ends_back();
}

/* The same of the standby, and its slots; when it takes over, what is not due is dropped. */
static void read_at_the_allowance(void)
{
    keep_ends();
    for (size_t i = 0; i < B; i++)
        check_answer("a BLOCK", read_block(some_blocks[i], 5), 0, RECORD_BLOCK);
    check_answer("a BLOCK above B", read_block(1, 5), NUMBER_ALLOWANCE_USED, 0);
    for (size_t i = 0; i < B; i++)
        check_answer("a BLOCK again", read_block(some_blocks[i], 6), 0, RECORD_BLOCK);
    check_answer("a BLOCK above B", read_block(3, 5), NUMBER_ALLOWANCE_USED, 0);
    check_staged(B, 2 * B);
    for (size_t i = 0; i < B; i++)
        CHECK(s.state[STANDBY_SLOTS + i], some_blocks[i]);
    CHECK(all_are(s.staged_blocks, B * U, 6), 1);
    check_answer("flush before COMMIT", flush(S), 0, 0);
    CHECK(all_are(s.disk, sizeof s.disk, 2), 1);
    for (unsigned i = 1; i <= T; i++)
        check_answer("tick", tick_standby(), 0, 0);
    CHECK(s.state[STANDBY_MODE], MODE_TAKING_OVER);
    check_staged(0, 0);
    put_ends_back();
}

/* Words of a standby with S slots staged, the last two of them by the epoch under way. */
static void stage_all_slots(void)
{
    static const uint64_t numbers[S] = {4, 0, 2, 1, 4, 0, 2};

    memcpy(s.state + STANDBY_SLOTS, numbers, sizeof numbers);
    s.state[STANDBY_STAGED] = S;
    s.state[STANDBY_DUE] = S - 2;
    s.state[STANDBY_BLOCKS] = s.state[STANDBY_RECORDS] = 2;
    memset(s.staged_blocks, 5, sizeof s.staged_blocks);
}

/* 17 is given to a block that is only due, and not where a slot is reused: of two the first. */
static void read_at_the_slots(void)
{
    const uint8_t *last = s.staged_blocks + (S - 1) * U;
    uint64_t *numbers = s.state + STANDBY_SLOTS;

    keep_ends();
    stage_all_slots();
    check_answer("a BLOCK without a slot", read_block(4, 6), NUMBER_SLOTS_FULL, 0);
    check_answer("a BLOCK with one", read_block(2, 6), 0, RECORD_BLOCK);
    CHECK(all_are(s.staged_blocks, (S - 1) * U, 5) && all_are(last, U, 6), 1);
    numbers[S - 2] = 2;
    check_answer("a BLOCK with two", read_block(2, 7), 0, RECORD_BLOCK);
    CHECK(all_are(s.staged_blocks, (S - 2) * U, 5), 1);
    CHECK(all_are(last - U, U, 7) && all_are(last, U, 6), 1);
    CHECK(s.state[STANDBY_STAGED], S);
    CHECK(s.state[STANDBY_DUE], S - 2);
    CHECK(s.state[STANDBY_BLOCKS], 2);
    CHECK(s.state[STANDBY_RECORDS], 4);
    put_ends_back();
}

/* Words of a standby with so many BLOCKs. */
static void read_at_most_records(void)
{
    keep_ends();
    check_answer("a BLOCK", read_block(4, 5), 0, RECORD_BLOCK);
    s.state[STANDBY_RECORDS] = MOST_RECORDS - 1;
    check_answer("BLOCK 65535", read_block(4, 6), 0, RECORD_BLOCK);
    check_staged(1, MOST_RECORDS);
    check_answer("BLOCK 65536, again", read_block(4, 7), NUMBER_ALLOWANCE_USED, 0);
    check_answer("BLOCK 65536, another", read_block(0, 7), NUMBER_ALLOWANCE_USED, 0);
    CHECK(all_are(s.staged_blocks, U, 6), 1);
    s.state[STANDBY_RECORDS] = MOST_RECORDS + 1;
    check_answer("a tick at 65536 BLOCKs", tick_standby(), NUMBER_OUT_OF_RANGE, 0);
    check_answer("a BLOCK at 65536", read_block(4, 7), NUMBER_OUT_OF_RANGE, 0);
    CHECK(s.state[STANDBY_RECORDS], 65536);
    s.state[STANDBY_RECORDS] = 0;
    s.state[STANDBY_BLOCKS] = B + 1;
    check_answer("a tick above B blocks", tick_standby(), NUMBER_OUT_OF_RANGE, 0);
    put_ends_back();
}

/* Drains the stream, which has whole records only, and reads them all. Returns the bytes. */
static size_t pass_on(void)
{
    size_t length = answer_value(primary_drain(LENT(p.state), LENT(p.stream), L,
                                               LENT(link_bytes)));
    size_t at = 0, used = 1;

    while (used > 0 && at < length) {
        used = answer_used(read_at(at, length - at));
        at += used;
    }
    check("bytes read of those drained", at, length);
    return length;
}

/* An epoch of 65,535 BLOCKs of blocks 3 and 1 by turns, and its checkpoint. */
static void largest_epoch(void)
{
    static const uint8_t commit1[] = {8, 0, 4, 0, 1, 0, 0, 0, 0, 0, 255, 255};
    unsigned accepted = 0;
    size_t length;

    keep_ends();
    for (unsigned i = 0; i < MOST_RECORDS; i++) {
        if (p.state[PRIMARY_WAITING] + U + 10 > L)
            pass_on();
        accepted += answer_number(write_block(i % 2 == 0 ? 3 : 1, (uint8_t)i)) == 0;
    }
    CHECK(accepted, MOST_RECORDS);
    pass_on();
    check_answer("BLOCK 65536", write_block(3, 5), NUMBER_ALLOWANCE_USED, 0);
    check_answer("BLOCK 65536", write_block(4, 5), NUMBER_ALLOWANCE_USED, 0);
    check_staged(2, MOST_RECORDS);
    check_answer("checkpoint", primary_checkpoint(LENT(p.state), LENT(p.memory), LENT(p.dirty),
                 LENT(p.stream), first), 0, 1);
    length = pass_on();
    CHECK(memcmp(link_bytes + length - sizeof commit1, commit1, sizeof commit1) == 0, 1);
    CHECK(s.state[STANDBY_RECEIVED], 1);
    check_answer("flush", flush(S), 0, 2);
    CHECK(memcmp(p.disk, s.disk, sizeof p.disk) == 0, 1);
    CHECK(all_are(s.disk + 3 * U, U, 254) && all_are(s.disk + U, U, 253), 1);
    check_answer("a block of the next epoch", write_block(4, 5), 0, 2);
    check_written(1, 1);
    put_ends_back();
}

static void same_block_again(void)
{
    written_at_the_allowance();
    written_without_space();
    written_at_most_records();
    read_at_the_allowance();
    read_at_the_slots();
    read_at_most_records();
    largest_epoch();
}

static uint64_t activate(void)
{
    return standby_activate(LENT(s.state), s.pending, s.processor, LENT(s.area));
}

/* ---- Sums: each test leaves both ends as they were. ---- */

#define MODULUS UINT64_C(4294967296)

static uint64_t order[M + 1];

/* Each byte * (its address + 1), of the bytes from one address on and below another. */
static uint64_t weighted(const uint8_t *image, size_t from, size_t to)
{
    uint64_t sum = 0;

    for (size_t address = from; address < to; address++)
        sum += (uint64_t)image[address] * (address + 1);
    return sum;
}

static uint32_t sum_of(const uint8_t memory[M * U])
{
    return (uint32_t)(weighted(memory, 0, M * U) % MODULUS);
}

/* Bytes that differ in a page and from page to page, the same at both ends. */
static void fill_memories(void)
{
    for (size_t i = 0; i < M * U; i++)
        p.memory[i] = s.memory[i] = (uint8_t)(i * 37 + i / U);
}

/* Each page once, where step and M have no common factor: M - 1 is the falling order. */
static void set_order(size_t first_page, size_t step)
{
    for (size_t i = 0; i < M; i++)
        order[i] = (first_page + i * step) % M;
}

/* The answer of a sum: it uses no bytes of a link. */
static void check_sum(const char *what, uint64_t answer, unsigned number, uint32_t value)
{
    check_answer(what, answer, number, value);
    check(what, answer_used(answer), 0);
}

/* A sum of so many words and bytes. It changes nothing. */
static void primary_gives(const char *what, size_t words, size_t length, unsigned number,
                          uint32_t value)
{
    static uint8_t before[sizeof p];

    memcpy(before, &p, sizeof p);
    check_sum(what, primary_sum(p.state, words, p.memory, length), number, value);
    CHECK(memcmp(before, &p, sizeof p) == 0, 1);
}

/* The same at the standby, in an order of so many entries. */
static void standby_gives(const char *what, size_t words, size_t length, size_t entries,
                          unsigned number, uint32_t value)
{
    static uint8_t before[sizeof s];
    static uint64_t order_before[M + 1];

    memcpy(before, &s, sizeof s);
    memcpy(order_before, order, sizeof order);
    check_sum(what, standby_sum(s.state, words, s.pending, s.processor, s.memory, length, order,
              entries), number, value);
    CHECK(memcmp(before, &s, sizeof s) == 0, 1);
    CHECK(memcmp(order_before, order, sizeof order) == 0, 1);
}

static void sum_at_primary(const char *what, uint32_t value)
{
    primary_gives(what, PRIMARY_WORDS, M * U, 0, value);
}

static void sum_at_standby(const char *what, uint32_t value)
{
    standby_gives(what, STANDBY_WORDS, M * U, M, 0, value);
}

/* Both ends give the same for the same memory, the standby in every order. */
static void sums_in_many_orders(void)
{
    static const size_t steps[] = {1, M - 1, 3, 9, 33};

    CHECK(weighted(p.memory, 0, M * U) > MODULUS, 1);
    sum_at_primary("a sum", sum_of(p.memory));
    for (size_t i = 0; i < sizeof steps / sizeof steps[0]; i++)
        for (size_t page = 0; page < M; page++) {
            set_order(page, steps[i]);
            sum_at_standby("a sum in an order", sum_of(p.memory));
        }
}

/* Memory that is all zero, or all zero but for one byte of 1, or all 255. */
static void sums_of_plain_memories(void)
{
    static const size_t addresses[] = {0, 1, U - 1, U, 2 * U, M * U - 1};

    memset(p.memory, 0, sizeof p.memory);
    memset(s.memory, 0, sizeof s.memory);
    sum_at_primary("a sum of zeros", 0);
    sum_at_standby("a sum of zeros", 0);
    for (size_t i = 0; i < sizeof addresses / sizeof addresses[0]; i++) {
        p.memory[addresses[i]] = s.memory[addresses[i]] = 1;
        sum_at_primary("a sum of one byte", (uint32_t)addresses[i] + 1);
        sum_at_standby("a sum of one byte", (uint32_t)addresses[i] + 1);
        p.memory[addresses[i]] = s.memory[addresses[i]] = 0;
    }
    memset(p.memory, 255, sizeof p.memory);
    memset(s.memory, 255, sizeof s.memory);
    sum_at_primary("a sum of bytes 255", sum_of(p.memory));
    sum_at_standby("a sum of bytes 255", sum_of(p.memory));
}

static void refused_order(const char *what, size_t entries)
{
    standby_gives(what, STANDBY_WORDS, M * U, entries, NUMBER_OUT_OF_RANGE, 0);
}

/* The falling order with one entry that is another: also one that a narrower type would cut. */
static void wrong_entries(void)
{
    for (size_t i = 0; i < M; i++) {
        const uint64_t page = M - 1 - i;
        const uint64_t entries[] = {(page + 1) % M, (page + M - 1) % M, M, page + M,
                                    page + 65536, page + MODULUS, page + (UINT64_C(1) << 63),
                                    UINT64_MAX};
        for (size_t j = 0; j < sizeof entries / sizeof entries[0]; j++) {
            set_order(M - 1, M - 1);
            order[i] = entries[j];
            refused_order("an order with a wrong entry", M);
        }
    }
}

/* Orders of another length, also where each page is named; and one page again and again. */
static void wrong_orders(void)
{
    set_order(0, 1);
    refused_order("an order one short", M - 1);
    refused_order("an order of no entry", 0);
    order[M] = 0;
    refused_order("an order one long", M + 1);
    order[M] = M;
    refused_order("an order one long", M + 1);
    for (uint64_t page = 0; page < M; page++) {
        for (size_t i = 0; i <= M; i++)
            order[i] = page;
        refused_order("an order of one page", M);
        refused_order("an order of one page", 1);
    }
}

/* A memory with a length that is not M * U. The byte behind it is one of the same end. */
static void wrong_memories(void)
{
    static const size_t lengths[] = {0, U, (M - 1) * U, M * U - 1, M * U + 1};

    set_order(0, 1);
    for (size_t i = 0; i < sizeof lengths / sizeof lengths[0]; i++) {
        primary_gives("a wrong memory", PRIMARY_WORDS, lengths[i], NUMBER_OUT_OF_RANGE, 0);
        standby_gives("a wrong memory", STANDBY_WORDS, lengths[i], M, NUMBER_OUT_OF_RANGE, 0);
    }
}

static void no_sum_at_primary(size_t at, uint64_t word)
{
    uint64_t before = p.state[at];

    p.state[at] = word;
    primary_gives("a sum of no state", PRIMARY_WORDS, M * U, NUMBER_OUT_OF_RANGE, 0);
    p.state[at] = before;
}

static void no_sum_at_standby(size_t at, uint64_t word)
{
    uint64_t before = s.state[at];

    s.state[at] = word;
    standby_gives("a sum of no state", STANDBY_WORDS, M * U, M, NUMBER_OUT_OF_RANGE, 0);
    s.state[at] = before;
}

/* Words that are no state, and states out of their range. */
static void sums_of_no_state(void)
{
    set_order(0, 1);
    primary_gives("a sum of 271 words", 271, M * U, NUMBER_OUT_OF_RANGE, 0);
    standby_gives("a sum of 79 words", 79, M * U, M, NUMBER_OUT_OF_RANGE, 0);
    no_sum_at_primary(PRIMARY_ALONE, 2);
    no_sum_at_primary(PRIMARY_T, MODULUS + T);
    no_sum_at_primary(PRIMARY_EPOCH, MODULUS + 1);
    no_sum_at_primary(PRIMARY_EPOCH, 0);
    no_sum_at_primary(PRIMARY_U, U + 1);
    no_sum_at_primary(PRIMARY_M, 0);
    no_sum_at_primary(PRIMARY_M, MODULUS + M);
    no_sum_at_standby(STANDBY_MODE, 3);
    no_sum_at_standby(STANDBY_STATE_SEEN, 2);
    no_sum_at_standby(STANDBY_T, MODULUS + T);
    no_sum_at_standby(STANDBY_RECEIVED, MODULUS);
    no_sum_at_standby(STANDBY_U, U + 1);
    no_sum_at_standby(STANDBY_M, 0);
    no_sum_at_standby(STANDBY_M, MODULUS + M);
}

static uint64_t checkpoint_primary(void)
{
    return primary_checkpoint(LENT(p.state), LENT(p.memory), LENT(p.dirty), LENT(p.stream), first);
}

static uint64_t write_page(size_t page, uint8_t byte)
{
    uint8_t page_bytes[U];

    memset(page_bytes, byte, sizeof page_bytes);
    return primary_memory_write(LENT(p.state), LENT(p.memory), LENT(p.dirty), page, 0,
                                LENT(page_bytes));
}

/* A drill: the standby has the checkpoint's sum from its COMMIT on, though the guest goes on. */
static void sums_of_a_checkpoint(void)
{
    const uint32_t sum0 = sum_of(p.memory);
    uint32_t sum1;

    set_order(M - 1, M - 1);
    check_answer("memory write", write_page(65, 200), 0, 1);
    sum1 = sum_of(p.memory);
    sum_at_primary("a sum in the epoch", sum1);
    check_answer("checkpoint", checkpoint_primary(), 0, 1);
    sum_at_primary("a sum at the checkpoint", sum1);
    check_answer("memory write", write_page(66, 201), 0, 2);
    primary_drain(LENT(p.state), LENT(p.stream), L, LENT(link_bytes));
    check_answer("PAGE", read_at(0, U + 10), 0, RECORD_PAGE);
    sum_at_standby("a sum after the PAGE", sum0);
    check_answer("STATE", read_at(U + 10, STATE_RECORD), 0, RECORD_STATE);
    sum_at_standby("a sum after the STATE", sum0);
    check_answer("COMMIT", read_at(U + 10 + STATE_RECORD, COMMIT_RECORD), 0,
                 RECORD_COMMIT);
    sum_at_standby("a sum after the COMMIT", sum1);
    CHECK(sum0 != sum1 && sum1 != sum_of(p.memory), 1);
    sum_at_primary("a sum in the next epoch", sum_of(p.memory));
}

/* A primary that is alone, and a standby that takes over and is active. */
static void sums_in_every_mode(void)
{
    check_answer("checkpoint", checkpoint_primary(), 0, 2);
    for (unsigned i = 1; i <= T; i++) {
        CHECK(p.state[PRIMARY_ALONE], 0);
        CHECK(s.state[STANDBY_MODE], MODE_RECEIVING);
        check_answer("tick", primary_tick(LENT(p.state)), 0, 0);
        check_answer("tick", tick_standby(), 0, 0);
    }
    CHECK(p.state[PRIMARY_ALONE], 1);
    sum_at_primary("a sum when alone", sum_of(p.memory));
    CHECK(s.state[STANDBY_MODE], MODE_TAKING_OVER);
    sum_at_standby("a sum when taking over", sum_of(s.memory));
    check_answer("activation", activate(), 0, 1);
    CHECK(s.state[STANDBY_MODE], MODE_ACTIVE);
    sum_at_standby("a sum when active", sum_of(s.memory));
    check_answer("memory write", standby_memory_write(LENT(s.state), s.pending, s.processor,
                 LENT(s.memory), 3, 1, bytes, 5), 0, 1);
    sum_at_standby("a sum after a write", sum_of(s.memory));
}

static void page_gives(const uint8_t *image, size_t length, size_t u, size_t page, unsigned number)
{
    uint64_t part = number == 0 ? weighted(image, page * u, page * u + u) % MODULUS : 0;

    check_sum("a page's part", pair_page_sum(image, length, u, page), number, (uint32_t)part);
}

/* The parts of all pages add up to the sum, whatever the pages' size. */
static void parts_of_a_sum(size_t u)
{
    static uint8_t before[M * U];
    uint32_t sum = 0;

    memcpy(before, p.memory, sizeof before);
    for (size_t page = 0; page < M * U / u; page++) {
        page_gives(p.memory, M * U, u, page, 0);
        sum += answer_value(pair_page_sum(LENT(p.memory), u, page));
    }
    CHECK(sum, sum_of(p.memory));
    CHECK(memcmp(before, p.memory, sizeof before) == 0, 1);
}

/* A page that is replaced changes the sum by the difference of its part, also downwards. */
static void replaced_pages(void)
{
    for (size_t i = 0; i < 2 * M; i++) {
        size_t page = i * 33 % M;
        uint32_t sum = answer_value(primary_sum(LENT(p.state), LENT(p.memory)));

        sum -= answer_value(pair_page_sum(LENT(p.memory), U, page));
        check_answer("memory write", write_page(page, i < M ? 255 : (uint8_t)i), 0, 1);
        sum += answer_value(pair_page_sum(LENT(p.memory), U, page));
        sum_at_primary("a sum with a page replaced", sum);
        CHECK(sum, sum_of(p.memory));
    }
}

/* The numbers are compared whole; page 2^57 of 128 bytes would begin at address 2^64. */
static void refused_parts(void)
{
    static const size_t units[] = {0, 1, 63, 65, 96, 127, 4095, 4097, 4096 + 64,
                                   (size_t)MODULUS + U, SIZE_MAX - 63, SIZE_MAX};
    static const size_t pages[] = {M, M + 1, (size_t)MODULUS, (size_t)1 << 57, SIZE_MAX};

    for (size_t i = 0; i < sizeof units / sizeof units[0]; i++)
        page_gives(p.memory, M * U, units[i], 0, NUMBER_OUT_OF_RANGE);
    for (size_t i = 0; i < sizeof pages / sizeof pages[0]; i++)
        page_gives(p.memory, M * U, U, pages[i], NUMBER_NO_SUCH_UNIT);
    page_gives(p.memory, M * U - 1, U, 0, NUMBER_OUT_OF_RANGE);
    page_gives(p.memory, M * U - 1, U, M, NUMBER_OUT_OF_RANGE); /* 1 before 2 */
    page_gives(p.memory, U - 1, U, 0, NUMBER_OUT_OF_RANGE);
    page_gives(p.memory, U, U, 0, 0);
    page_gives(p.memory, U, U, 1, NUMBER_NO_SUCH_UNIT);
    page_gives(p.memory, 0, U, 0, NUMBER_OUT_OF_RANGE);
}

/* The largest memory, of which only the last page is written, and one page more. */
static void parts_of_the_largest_memory(void)
{
    enum { MOST = 65536 * 4096 };
    uint8_t *image = (uint8_t *)calloc(MOST + 4096, 1);

    CHECK(image != NULL, 1);
    if (image == NULL)
        return;
    memset(image + MOST - 4096, 255, 4096);
    page_gives(image, MOST, 4096, 65535, 0);
    page_gives(image, MOST, 4096, 0, 0);
    page_gives(image, MOST, 4096, 65536, NUMBER_NO_SUCH_UNIT);
    page_gives(image, MOST + 1, 4096, 65535, NUMBER_OUT_OF_RANGE);
    page_gives(image, MOST + 4096, 4096, 0, NUMBER_OUT_OF_RANGE);
    page_gives(image, 65536 * 64, 64, 65535, 0);
    page_gives(image, 65536 * 64, 64, 65536, NUMBER_NO_SUCH_UNIT);
    page_gives(image, 65537 * 64, 64, 0, NUMBER_OUT_OF_RANGE);
    free(image);
}

static void sums(void)
{
    keep_ends();
    fill_memories();
    sums_in_many_orders();
    wrong_entries();
    wrong_orders();
    wrong_memories();
    sums_of_no_state();
    parts_of_a_sum(U);
    parts_of_a_sum(64);
    parts_of_a_sum(64 * 7);
    refused_parts();
    parts_of_the_largest_memory();
    sums_of_a_checkpoint();
    sums_in_every_mode();
    put_ends_back();
    sums_of_plain_memories();
    replaced_pages();
    put_ends_back();
}

static void takeover(void)
{
    static const uint8_t activation1[] = {4, 0, 6, 0, 1, 0, 0, 0};

    for (unsigned i = 1; i <= T; i++) {
        check_answer("activation", activate(), NUMBER_WRONG_MODE, 0);
        check_answer("tick", tick_standby(), 0, 0);
        CHECK(s.state[STANDBY_TICKS], i);
    }
    CHECK(s.state[STANDBY_MODE], MODE_TAKING_OVER);
    check_answer("activation", activate(), NUMBER_BLOCKS_DUE, 0);
    check_answer("flush", flush(S), 0, 2); /* of three BLOCKs */
    CHECK(memcmp(p.disk, s.disk, sizeof p.disk) == 0, 1);
    check_answer("choice", pair_disk_choice(LENT(p.disk), LENT(s.disk), LENT(s.area)), 0,
                 CHOICE_PRIMARY);
    CHECK(disk_choice(LENT(p.disk), LENT(s.disk), LENT(s.area)), DISK_PRIMARY);
    check_answer("activation", activate(), 0, 1);
    CHECK(s.state[STANDBY_MODE], MODE_ACTIVE);
    CHECK(memcmp(s.area, activation1, sizeof activation1) == 0, 1);
    check_answer("choice", pair_disk_choice(LENT(p.disk), LENT(s.disk), LENT(s.area)), 0,
                 CHOICE_STANDBY);
    CHECK(disk_choice(LENT(p.disk), LENT(s.disk), LENT(s.area)), DISK_STANDBY);
}

static void active(void)
{
    check_answer("memory write", standby_memory_write(LENT(s.state), s.pending, s.processor,
                 LENT(s.memory), M - 1, 0, bytes, U), 0, 1);
    CHECK(memcmp(s.memory + (M - 1) * U, bytes, U) == 0, 1);
    check_answer("disk write", standby_disk_write(LENT(s.state), s.pending, s.processor,
                 LENT(s.disk), D - 1, bytes, U - 1), NUMBER_BAD_SIZE, 0);
    check_answer("disk write", standby_disk_write(LENT(s.state), s.pending, s.processor,
                 LENT(s.disk), D, bytes, U), NUMBER_NO_SUCH_UNIT, 0);
    check_answer("a record", read_at(0, U + 10), NUMBER_WRONG_MODE, 0);
}

/* Ticks of a state with one word too large: 1, and the words stay. */
static void no_state(uint64_t *words, size_t count, size_t at, uint64_t word)
{
    uint64_t before = words[at], answer;

    words[at] = word;
    if (count == PRIMARY_WORDS)
        answer = primary_tick(words, count);
    else
        answer = standby_tick(words, count, s.pending, s.processor, LENT(s.staged_marks));
    check_answer("a tick of words that are no state", answer, NUMBER_OUT_OF_RANGE, 0);
    CHECK(words[at], word);
    words[at] = before;
}

/* A packet's epoch is a field of 32 bits, its length and its port are fields of 16. */
static void no_packet(size_t at)
{
    const uint64_t *packet = p.state + at;

    no_state(p.state, PRIMARY_WORDS, at + PACKET_EPOCH,
             (UINT64_C(1) << 32) + packet[PACKET_EPOCH]);
    no_state(p.state, PRIMARY_WORDS, at + PACKET_LENGTH, 65536 + packet[PACKET_LENGTH]);
    no_state(p.state, PRIMARY_WORDS, at + PACKET_PORT, 65536 + packet[PACKET_PORT]);
}

/* The numbers of the blocks written are fields of 16 bits; document 02 gives them no range. */
static void no_block_number(size_t at)
{
    uint64_t before = p.state[at];

    no_state(p.state, PRIMARY_WORDS, at, 65536 + before);
    p.state[at] = 65535;
    check_answer("a tick with block number 65535", primary_tick(LENT(p.state)), 0, 0);
    CHECK(p.state[at], 65535);
    p.state[at] = before;
}

/* A held packet of port 4, and one of port 3. */
static void port_out_of_range(void)
{
    uint64_t *packet = p.state + PRIMARY_PACKETS;

    check_answer("packet", send_packet(3, bytes, 1), 0, 1);
    packet[PACKET_PORT] = 4;
    check_answer("a tick with port 4 held", primary_tick(LENT(p.state)), NUMBER_OUT_OF_RANGE, 0);
    packet[PACKET_PORT] = 3;
    check_answer("a tick with port 3 held", primary_tick(LENT(p.state)), 0, 0);
}

static void words_that_are_no_state(void)
{
    static const size_t primary_fields[] = {PRIMARY_T, PRIMARY_TICKS, PRIMARY_EPOCH,
                                            PRIMARY_ACKNOWLEDGED};
    static const size_t standby_fields[] = {STANDBY_T, STANDBY_TICKS, STANDBY_RECEIVED};
    const uint64_t large = UINT64_C(1) << 32;

    for (size_t i = 0; i < sizeof primary_fields / sizeof primary_fields[0]; i++)
        no_state(p.state, PRIMARY_WORDS, primary_fields[i], large + p.state[primary_fields[i]]);
    for (size_t i = 0; i < sizeof standby_fields / sizeof standby_fields[0]; i++)
        no_state(s.state, STANDBY_WORDS, standby_fields[i], large + s.state[standby_fields[i]]);
    for (size_t i = 0; i < MOST_PACKETS; i++)
        no_packet(PRIMARY_PACKETS + i * PACKET_WORDS);
    for (size_t i = 0; i < MOST_BLOCKS; i++)
        no_block_number(PRIMARY_WRITTEN + i);
    no_state(p.state, PRIMARY_WORDS, PRIMARY_ALONE, 2);
    no_state(s.state, STANDBY_WORDS, STANDBY_MODE, 3);
    no_state(s.state, STANDBY_WORDS, STANDBY_STATE_SEEN, 2);
    check_answer("271 words", primary_tick(p.state, 271), NUMBER_OUT_OF_RANGE, 0);
    check_answer("272 words", primary_tick(p.state, 272), 0, 0);
    check_answer("79 words", standby_tick(s.state, 79, s.pending, s.processor,
                 LENT(s.staged_marks)), NUMBER_OUT_OF_RANGE, 0);
    check_answer("80 words", standby_tick(s.state, 80, s.pending, s.processor,
                 LENT(s.staged_marks)), 0, 0);
}

int main(void)
{
    accessors();
    kinds();
    refused_starts();
    accepted_start();
    same_block_again();
    sums();
    first_epoch();
    kept_on_file();
    received_by_missing();
    records();
    acknowledge_parts();
    headers_of_the_other_end();
    wide_records();
    acknowledged();
    taken_by_port();
    takeover();
    active();
    port_out_of_range();
    words_that_are_no_state();
    printf("%u passed, %u failed\n", passed, failed);
    return failed != 0;
}
