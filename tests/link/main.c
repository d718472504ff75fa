/*
 * Calls record_test and disk_choice as the link daemon does, on cases worked out by hand.
 *
 * A failing case is printed with its input, of very many the first; the last line is 'N passed, M
 * failed'.
 */

#include <signal.h>
#include <stdio.h>
#include <stdlib.h>
#include <string.h>
#include <sys/mman.h>
#include <unistd.h>

#include "link.h"

#define SIZE(array) (sizeof(array) / sizeof((array)[0]))

/* The word of cut short, with so many bytes missing. */
#define MISSING(n) (UINT64_C(65536) * (n))

/* Room for the longest record, a wide PAGE at U 4096, of U + 12 bytes, and for bytes behind it. */
#define ROOM 8192

/* How many failures are printed. The others are counted. */
#define PRINTED 50

static unsigned passed, failed;

/* Counts a failure; whether it is to be printed. */
static int fails(void)
{
    return ++failed <= PRINTED;
}

/* ROOM bytes can be written and read before it, and none from it on. */
static uint8_t *edge;

static void make_edge(void)
{
    size_t page = (size_t)sysconf(_SC_PAGESIZE);
    size_t half = (ROOM + page - 1) / page * page;
    uint8_t *area =
        mmap(NULL, 2 * half, PROT_READ | PROT_WRITE, MAP_PRIVATE | MAP_ANONYMOUS, -1, 0);

    if (area == MAP_FAILED || mprotect(area + half, half, PROT_NONE) != 0) {
        perror("main: guard page");
        exit(2);
    }
    edge = area + half;
}

/* The bytes, of very many their head. */
static void print_bytes(const uint8_t *bytes, size_t len)
{
    size_t head = len <= 512 ? len : 64;

    printf(" %zu bytes:", len);
    for (size_t i = 0; i < head; i++)
        printf(" %02x", bytes[i]);
    printf("%s\n", head < len ? " .." : "");
}

static void print_input(uint64_t u, const uint8_t *bytes, size_t len)
{
    printf("  U %llu,", (unsigned long long)u);
    print_bytes(bytes, len);
}

static void print_word(const char *who, uint64_t word)
{
    printf("  %s: word %llu, number %u, kind %u, used %zu, missing %zu%s\n", who,
           (unsigned long long)word, record_number(word), record_kind(word), record_used(word),
           record_missing(word), record_cut_short(word) ? ", cut short" : "");
}

/* Whether link.h reads these from a word, and cut short exactly where bytes are missing. */
static int reads_as(uint64_t word, unsigned number, unsigned kind, size_t used, size_t missing)
{
    return record_number(word) == number && record_kind(word) == kind &&
           record_used(word) == used && record_missing(word) == missing &&
           record_cut_short(word) == (missing != 0);
}

/* The case under way, for a call that reads where nothing can be read. */
static struct {
    const char *what;
    uint64_t u;
    const uint8_t *bytes;
    size_t len;
} current;

static void begin(const char *what, uint64_t u, const uint8_t *bytes, size_t len)
{
    current.what = what;
    current.u = u;
    current.bytes = bytes;
    current.len = len;
}

/* The fault is the call's own, so no printing was under way. */
static void read_outside(int signal)
{
    (void)signal;
    printf("FAILED %s: a read past the end, the cases behind it are not tried\n", current.what);
    print_input(current.u, current.bytes, current.len);
    printf("%u passed, %u failed\n", passed, failed + 1);
    fflush(stdout);
    _exit(1);
}

/*
 * One case. It is called twice. First the bytes are taken where they lie: what the caller has
 * behind them, such as the rest of the record, must not matter. Then they end where the readable
 * memory ends, so that a read past them would stop the program.
 *
 * An empty input has a pointer too, and not a null one. The function takes a Rust-like slice
 * reference, which is never null, whatever its length, so its compiler is free to build on that;
 * what a null pointer would do is not said anywhere. The second call of an empty input passes a
 * pointer to memory that cannot be read, which a slice of length 0 may have.
 */
static void check(const char *what, uint64_t u, const uint8_t *bytes, size_t len, unsigned number,
                  unsigned kind, size_t used, size_t missing)
{
    uint64_t want = number + 256 * (uint64_t)kind + 65536 * (uint64_t)(used + missing);
    uint64_t got, again;

    begin(what, u, bytes, len);
    got = record_test(u, bytes, len);
    memcpy(edge - len, bytes, len);
    again = record_test(u, edge - len, len);

    if (got == want && again == want && reads_as(got, number, kind, used, missing)) {
        passed++;
        return;
    }
    if (!fails())
        return;
    printf("FAILED %s\n", what);
    print_input(u, bytes, len);
    print_word("wanted", want);
    print_word("got", got);
    if (again != got)
        print_word("got for a copy", again);
}

static void check_whole(const char *what, uint64_t u, const uint8_t *bytes, size_t len,
                        unsigned kind, size_t used)
{
    check(what, u, bytes, len, 0, kind, used, 0);
}

static void check_cut_short(const char *what, uint64_t u, const uint8_t *bytes, size_t len,
                            size_t missing)
{
    check(what, u, bytes, len, 0, 0, 0, missing);
}

static void check_refused(const char *what, uint64_t u, const uint8_t *bytes, size_t len,
                          unsigned number)
{
    check(what, u, bytes, len, number, 0, 0, 0);
}

/* What the functions of link.h read from a word, by hand. */
static void words(void)
{
    static const struct {
        const char *what;
        uint64_t word;
        unsigned number, kind;
        size_t used, missing;
    } rows[] = {
        {"1", 1, RECORD_BAD_U, 0, 0, 0},
        {"6", 6, RECORD_BAD_KIND, 0, 0, 0},
        {"7", 7, RECORD_BAD_LENGTH, 0, 0, 0},
        {"cut short, 1 missing", 65536, 0, 0, 0, 1},
        {"cut short, 4 missing", 262144, 0, 0, 0, 4},
        {"cut short, 256 missing", 16777216, 0, 0, 0, 256},
        {"cut short, a body of 4102", 268828672, 0, 0, 0, 4102},
        {"cut short, a body of 4104", 268959744, 0, 0, 0, 4104},
        {"PAGE at U 64", 4849920, 0, RECORD_PAGE, 74, 0},
        {"BLOCK at U 4096", 269091328, 0, RECORD_BLOCK, 4106, 0},
        {"STATE", 4719360, 0, RECORD_STATE, 72, 0},
        {"COMMIT", 787456, 0, RECORD_COMMIT, 12, 0},
        {"ACK", 525568, 0, RECORD_ACK, 8, 0},
        {"wide PAGE at U 64", 4982784, 0, RECORD_WIDE_PAGE, 76, 0},
        {"wide PAGE at U 4096", 269223936, 0, RECORD_WIDE_PAGE, 4108, 0},
        {"wide COMMIT", 1050880, 0, RECORD_WIDE_COMMIT, 16, 0},
    };

    for (size_t r = 0; r < SIZE(rows); r++) {
        if (reads_as(rows[r].word, rows[r].number, rows[r].kind, rows[r].used, rows[r].missing)) {
            passed++;
        } else if (fails()) {
            printf("FAILED the word of %s\n", rows[r].what);
            print_word("read", rows[r].word);
        }
    }
}

/* E3: ACK 1. */
static const uint8_t ack1[] = {0x04, 0x00, 0x05, 0x00, 0x01, 0x00, 0x00, 0x00};

/* E4: COMMIT epoch 2, 3 pages, 1 block. */
static const uint8_t commit2[] = {0x08, 0x00, 0x04, 0x00, 0x02, 0x00,
                                  0x00, 0x00, 0x03, 0x00, 0x01, 0x00};

/* The same with 4-byte counts, kind 9. */
static const uint8_t wide_commit2[] = {0x0c, 0x00, 0x09, 0x00, 0x02, 0x00, 0x00, 0x00,
                                       0x03, 0x00, 0x00, 0x00, 0x01, 0x00, 0x00, 0x00};

/* The head of a PAGE with a 4-byte number, kind 8, at U 64: page 65,535 of epoch 2. */
static const uint8_t wide_page2[76] = {0x48, 0x00, 0x08, 0x00, 0x02, 0x00,
                                       0x00, 0x00, 0xff, 0xff, 0x00, 0x00};

/* E5: activation at 0. It lies in the standby's record area and is no record of the link. */
static const uint8_t activation0[] = {0x04, 0x00, 0x06, 0x00, 0x00, 0x00, 0x00, 0x00};

static void examples(void)
{
    check_whole("E3, ACK 1", 64, ack1, 8, 5, 8);
    check_whole("E4, COMMIT 2", 64, commit2, 12, 4, 12);
    check_whole("wide COMMIT 2", 64, wide_commit2, 16, RECORD_WIDE_COMMIT, 16);
    check_cut_short("wide COMMIT 2, its header only", 64, wide_commit2, 4, 12);
    check_whole("wide PAGE 65535", 64, wide_page2, 76, RECORD_WIDE_PAGE, 76);
    check_cut_short("wide PAGE 65535, its header only", 64, wide_page2, 4, 72);
    check_cut_short("wide PAGE 65535, without its bytes", 64, wide_page2, 12, 64);
    check_refused("E5, an activation", 64, activation0, 8, 6);
    check_refused("E5, its header only", 64, activation0, 4, 6);
    check_cut_short("E5, its header less one byte", 64, activation0, 3, 1);
}

/* Each kind's header and whole length, by hand. */
static const struct kind {
    const char *name;
    uint64_t u;
    uint8_t header[4];
    unsigned kind;
    size_t whole;
} kinds[] = {
    {"PAGE at U 64", 64, {0x46, 0x00, 0x01, 0x00}, 1, 74},
    {"BLOCK at U 64", 64, {0x46, 0x00, 0x02, 0x00}, 2, 74},
    {"STATE at U 64", 64, {0x44, 0x00, 0x03, 0x00}, 3, 72},
    {"COMMIT at U 64", 64, {0x08, 0x00, 0x04, 0x00}, 4, 12},
    {"ACK at U 64", 64, {0x04, 0x00, 0x05, 0x00}, 5, 8},
    {"PAGE at U 128", 128, {0x86, 0x00, 0x01, 0x00}, 1, 138},
    {"BLOCK at U 192", 192, {0xc6, 0x00, 0x02, 0x00}, 2, 202},
    {"PAGE at U 256", 256, {0x06, 0x01, 0x01, 0x00}, 1, 266},
    {"BLOCK at U 1024", 1024, {0x06, 0x04, 0x02, 0x00}, 2, 1034},
    {"PAGE at U 4096", 4096, {0x06, 0x10, 0x01, 0x00}, 1, 4106},
    {"BLOCK at U 4096", 4096, {0x06, 0x10, 0x02, 0x00}, 2, 4106},
    {"STATE at U 4096", 4096, {0x44, 0x00, 0x03, 0x00}, 3, 72},
    {"COMMIT at U 4096", 4096, {0x08, 0x00, 0x04, 0x00}, 4, 12},
    {"ACK at U 4096", 4096, {0x04, 0x00, 0x05, 0x00}, 5, 8},
    {"wide PAGE at U 64", 64, {0x48, 0x00, 0x08, 0x00}, 8, 76},
    {"wide COMMIT at U 64", 64, {0x0c, 0x00, 0x09, 0x00}, 9, 16},
    {"wide PAGE at U 192", 192, {0xc8, 0x00, 0x08, 0x00}, 8, 204},
    {"wide PAGE at U 256", 256, {0x08, 0x01, 0x08, 0x00}, 8, 268},
    {"wide PAGE at U 4096", 4096, {0x08, 0x10, 0x08, 0x00}, 8, 4108},
    {"wide COMMIT at U 4096", 4096, {0x0c, 0x00, 0x09, 0x00}, 9, 16},
};

/* A header and, up to len, what stands for a body: bytes that count on from first. */
static void fill(uint8_t *to, const uint8_t header[4], size_t len, uint8_t first)
{
    memcpy(to, header, 4);
    for (size_t i = 4; i < len; i++)
        to[i] = (uint8_t)(first + i);
}

static void each_kind(void)
{
    static uint8_t bytes[ROOM];
    char what[80];

    for (size_t k = 0; k < SIZE(kinds); k++) {
        const struct kind *r = &kinds[k];
        size_t whole = r->whole;

        fill(bytes, r->header, ROOM, 0);
        check_whole(r->name, r->u, bytes, whole, r->kind, whole);
        for (size_t len = 0; len < whole; len++) {
            snprintf(what, sizeof what, "%s, its first %zu bytes", r->name, len);
            check_cut_short(what, r->u, bytes, len, len < 4 ? 4 - len : whole - len);
        }
        for (size_t tail = 1; tail <= 80; tail++) {
            snprintf(what, sizeof what, "%s, %zu bytes behind it", r->name, tail);
            check_whole(what, r->u, bytes, whole + tail, r->kind, whole);
        }
        snprintf(what, sizeof what, "%s, many bytes behind it", r->name);
        check_whole(what, r->u, bytes, ROOM, r->kind, whole);

        memset(bytes + 4, 0x00, ROOM - 4);
        snprintf(what, sizeof what, "%s, its body all zeros", r->name);
        check_whole(what, r->u, bytes, whole, r->kind, whole);

        memset(bytes + 4, 0xff, ROOM - 4);
        snprintf(what, sizeof what, "%s, its body all ones", r->name);
        check_whole(what, r->u, bytes, whole, r->kind, whole);
    }
}

static void short_headers(void)
{
    static const uint8_t zeros[4] = {0}, ones[4] = {0xff, 0xff, 0xff, 0xff};

    check_cut_short("empty", 64, zeros, 0, 4);
    check_cut_short("empty at U 4096", 4096, zeros, 0, 4);
    check_cut_short("header of 1 byte", 64, ones, 1, 3);
    check_cut_short("header of 2 bytes, no kind's length", 64, ones, 2, 2);
    check_cut_short("header of 3 bytes, no kind", 64, ones, 3, 1);
    check_cut_short("header of 3 bytes, zeros", 64, zeros, 3, 1);
    check_refused("header of 4 bytes, zeros", 64, zeros, 4, 6);
    check_refused("header of 4 bytes, ones", 64, ones, 4, 6);
}

/* Headers that are refused, at U 64: alone, with few bytes behind them, and with many. */
static void refused_headers(void)
{
    static const struct {
        const char *what;
        uint8_t header[4];
        unsigned number;
    } rows[] = {
        {"kind 0 with ACK's length", {0x04, 0x00, 0x00, 0x00}, 6},
        {"kind 6 with ACK's length", {0x04, 0x00, 0x06, 0x00}, 6},
        {"kind 7 with ACK's length", {0x04, 0x00, 0x07, 0x00}, 6},
        {"kind 7 with PAGE's length", {0x46, 0x00, 0x07, 0x00}, 6},
        {"kind 7 with wide PAGE's length", {0x48, 0x00, 0x07, 0x00}, 6},
        {"kind 10 with ACK's length", {0x04, 0x00, 0x0a, 0x00}, 6},
        {"kind 10 with wide COMMIT's length", {0x0c, 0x00, 0x0a, 0x00}, 6},
        {"kind 255 with ACK's length", {0x04, 0x00, 0xff, 0x00}, 6},
        {"kind 256", {0x04, 0x00, 0x00, 0x01}, 6},
        {"kind 256 + 8, wide PAGE in its low byte", {0x48, 0x00, 0x08, 0x01}, 6},
        {"kind 256 + 9, wide COMMIT in its low byte", {0x0c, 0x00, 0x09, 0x01}, 6},
        {"kind 256 + 1, PAGE in its low byte", {0x46, 0x00, 0x01, 0x01}, 6},
        {"kind 256 + 5, ACK in its low byte", {0x04, 0x00, 0x05, 0x01}, 6},
        {"kind 32768 + 4, COMMIT in its low byte", {0x08, 0x00, 0x04, 0x80}, 6},
        {"kind 65535", {0x04, 0x00, 0xff, 0xff}, 6},

        {"PAGE, length 0", {0x00, 0x00, 0x01, 0x00}, 7},
        {"PAGE, length U", {0x40, 0x00, 0x01, 0x00}, 7},
        {"PAGE, one less", {0x45, 0x00, 0x01, 0x00}, 7},
        {"PAGE, one more", {0x47, 0x00, 0x01, 0x00}, 7},
        {"PAGE, the header counted in", {0x4a, 0x00, 0x01, 0x00}, 7},
        {"PAGE, 256 more", {0x46, 0x01, 0x01, 0x00}, 7},
        {"PAGE, U 128's length", {0x86, 0x00, 0x01, 0x00}, 7},
        {"PAGE, U 4096's length", {0x06, 0x10, 0x01, 0x00}, 7},
        {"PAGE, STATE's length", {0x44, 0x00, 0x01, 0x00}, 7},
        {"PAGE, wide PAGE's length", {0x48, 0x00, 0x01, 0x00}, 7},
        {"BLOCK, length 0", {0x00, 0x00, 0x02, 0x00}, 7},
        {"BLOCK, one less", {0x45, 0x00, 0x02, 0x00}, 7},
        {"BLOCK, one more", {0x47, 0x00, 0x02, 0x00}, 7},
        {"BLOCK, U 128's length", {0x86, 0x00, 0x02, 0x00}, 7},
        {"BLOCK, wide PAGE's length", {0x48, 0x00, 0x02, 0x00}, 7},
        {"STATE, length 0", {0x00, 0x00, 0x03, 0x00}, 7},
        {"STATE, its 64 bytes only", {0x40, 0x00, 0x03, 0x00}, 7},
        {"STATE, one less", {0x43, 0x00, 0x03, 0x00}, 7},
        {"STATE, one more", {0x45, 0x00, 0x03, 0x00}, 7},
        {"STATE, PAGE's length", {0x46, 0x00, 0x03, 0x00}, 7},
        {"STATE, the header counted in", {0x48, 0x00, 0x03, 0x00}, 7},
        {"COMMIT, length 0", {0x00, 0x00, 0x04, 0x00}, 7},
        {"COMMIT, ACK's length", {0x04, 0x00, 0x04, 0x00}, 7},
        {"COMMIT, one less", {0x07, 0x00, 0x04, 0x00}, 7},
        {"COMMIT, one more", {0x09, 0x00, 0x04, 0x00}, 7},
        {"COMMIT, wide COMMIT's length, the header counted in", {0x0c, 0x00, 0x04, 0x00}, 7},
        {"ACK, length 0", {0x00, 0x00, 0x05, 0x00}, 7},
        {"ACK, one less", {0x03, 0x00, 0x05, 0x00}, 7},
        {"ACK, one more", {0x05, 0x00, 0x05, 0x00}, 7},
        {"ACK, COMMIT's length", {0x08, 0x00, 0x05, 0x00}, 7},
        {"ACK, 256 more", {0x04, 0x01, 0x05, 0x00}, 7},
        {"ACK, 32768 more", {0x04, 0x80, 0x05, 0x00}, 7},
        {"ACK, length 65535", {0xff, 0xff, 0x05, 0x00}, 7},
        {"wide PAGE, length 0", {0x00, 0x00, 0x08, 0x00}, 7},
        {"wide PAGE, ACK's length", {0x04, 0x00, 0x08, 0x00}, 7},
        {"wide PAGE, length U", {0x40, 0x00, 0x08, 0x00}, 7},
        {"wide PAGE, PAGE's length", {0x46, 0x00, 0x08, 0x00}, 7},
        {"wide PAGE, one less", {0x47, 0x00, 0x08, 0x00}, 7},
        {"wide PAGE, one more", {0x49, 0x00, 0x08, 0x00}, 7},
        {"wide PAGE, the header counted in", {0x4c, 0x00, 0x08, 0x00}, 7},
        {"wide PAGE, 256 more", {0x48, 0x01, 0x08, 0x00}, 7},
        {"wide PAGE, U 128's length", {0x88, 0x00, 0x08, 0x00}, 7},
        {"wide PAGE, U 4096's length", {0x08, 0x10, 0x08, 0x00}, 7},
        {"wide COMMIT, length 0", {0x00, 0x00, 0x09, 0x00}, 7},
        {"wide COMMIT, length 1", {0x01, 0x00, 0x09, 0x00}, 7},
        {"wide COMMIT, COMMIT's length", {0x08, 0x00, 0x09, 0x00}, 7},
        {"wide COMMIT, one less", {0x0b, 0x00, 0x09, 0x00}, 7},
        {"wide COMMIT, one more", {0x0d, 0x00, 0x09, 0x00}, 7},
        {"wide COMMIT, the header counted in", {0x10, 0x00, 0x09, 0x00}, 7},
        {"wide COMMIT, 256 more", {0x0c, 0x01, 0x09, 0x00}, 7},
        {"wide COMMIT, length 65535", {0xff, 0xff, 0x09, 0x00}, 7},

        {"kind before length: length 5, kind 4", {0x05, 0x00, 0x04, 0x00}, 7},
        {"big-endian ACK: length 1024, kind 1280", {0x00, 0x04, 0x00, 0x05}, 6},
        {"big-endian length only", {0x00, 0x04, 0x05, 0x00}, 7},
        {"big-endian kind only", {0x04, 0x00, 0x00, 0x05}, 6},

        {"6 before 7: kind 0, length 0", {0x00, 0x00, 0x00, 0x00}, 6},
        {"6 before 7: kind 6, length 5", {0x05, 0x00, 0x06, 0x00}, 6},
        {"6 before 7: kind 6, length 65535", {0xff, 0xff, 0x06, 0x00}, 6},
        {"6 before 7: kind 7, length 1", {0x01, 0x00, 0x07, 0x00}, 6},
        {"6 before 7: kind 10, length 1", {0x01, 0x00, 0x0a, 0x00}, 6},
    };
    static const size_t lengths[] = {4, 5, 8, 12, 16, 71, 72, 73, 74, 75, 76, 77, 200, ROOM};
    static uint8_t bytes[ROOM];
    char what[80];

    for (size_t r = 0; r < SIZE(rows); r++) {
        fill(bytes, rows[r].header, ROOM, 0x30);
        for (size_t l = 0; l < SIZE(lengths); l++) {
            snprintf(what, sizeof what, "%s, in %zu bytes", rows[r].what, lengths[l]);
            check_refused(what, 64, bytes, lengths[l], rows[r].number);
        }
        /* Not yet: what is wrong stands in a header that is not whole. */
        for (size_t len = 0; len < 4; len++) {
            snprintf(what, sizeof what, "%s, in %zu bytes", rows[r].what, len);
            check_cut_short(what, 64, bytes, len, 4 - len);
        }
    }
}

/* Every U in range has PAGEs of both widths and BLOCKs of its own length, and refuses others'. */
static void lengths_by_u(void)
{
    static const unsigned units[] = {RECORD_PAGE, RECORD_BLOCK, RECORD_WIDE_PAGE};
    static uint8_t bytes[ROOM];
    char what[80];

    for (uint64_t u = 64; u <= 4096; u += 64) {
        for (size_t i = 0; i < SIZE(units); i++) {
            unsigned kind = units[i];
            size_t body = (size_t)u + (kind == RECORD_WIDE_PAGE ? 8 : 6);
            const uint8_t header[4] = {(uint8_t)body, (uint8_t)(body >> 8), (uint8_t)kind, 0};

            fill(bytes, header, ROOM, 0x55);
            snprintf(what, sizeof what, "kind %u at its U", kind);
            check_whole(what, u, bytes, body + 4, kind, body + 4);
            snprintf(what, sizeof what, "kind %u at its U, one byte short", kind);
            check_cut_short(what, u, bytes, body + 3, 1);
            snprintf(what, sizeof what, "kind %u at its U, its header only", kind);
            check_cut_short(what, u, bytes, 4, body);
            snprintf(what, sizeof what, "kind %u at the next U", kind);
            check_refused(what, u + 64, bytes, ROOM, u == 4096 ? 1 : 7);
            snprintf(what, sizeof what, "kind %u at the U before", kind);
            check_refused(what, u - 64, bytes, ROOM, u == 64 ? 1 : 7);
        }
        check_whole("ACK at any U", u, ack1, sizeof ack1, 5, 8);
        check_whole("COMMIT at any U", u, commit2, sizeof commit2, 4, 12);
        check_whole("wide COMMIT at any U", u, wide_commit2, sizeof wide_commit2, 9, 16);
    }
}

/* A U out of range is 1, whatever the bytes are. */
static void u_out_of_range(void)
{
    static const uint64_t us[] = {
        0, 1, 2, 32, 63, 65, 68, 70, 96, 127, 129, 4032 + 32, 4095, 4097, 4102, 4160, 8192, 65536,
        65536 + 64, 1 << 20, UINT64_C(0xffffffff), UINT64_C(1) << 32, (UINT64_C(1) << 32) + 64,
        (UINT64_C(1) << 32) + 4096, UINT64_C(1) << 63, (UINT64_C(1) << 63) + 64,
        UINT64_MAX - 63, UINT64_MAX - 5, UINT64_MAX - 1, UINT64_MAX,
    };
    static uint8_t bytes[ROOM];

    for (size_t i = 0; i < SIZE(us); i++) {
        uint64_t u = us[i];
        uint64_t body = u + 6, wide = u + 8;
        const uint8_t page[4] = {(uint8_t)body, (uint8_t)(body >> 8), 1, 0};
        const uint8_t wide_page[4] = {(uint8_t)wide, (uint8_t)(wide >> 8), 8, 0};
        static const uint8_t bad_length[4] = {0x05, 0x00, 0x05, 0x00};

        check_refused("U out of range, empty", u, ack1, 0, 1);
        check_refused("U out of range, header cut", u, ack1, 3, 1);
        check_refused("U out of range, header only", u, ack1, 4, 1);
        check_refused("U out of range, ACK", u, ack1, sizeof ack1, 1);
        check_refused("U out of range, COMMIT", u, commit2, sizeof commit2, 1);
        check_refused("U out of range, wide COMMIT", u, wide_commit2, sizeof wide_commit2, 1);
        check_refused("U out of range, kind 6", u, activation0, sizeof activation0, 1);
        fill(bytes, bad_length, ROOM, 0);
        check_refused("U out of range, wrong length", u, bytes, 9, 1);
        fill(bytes, page, ROOM, 0);
        check_refused("U out of range, PAGE of that U", u, bytes, ROOM, 1);
        fill(bytes, wide_page, ROOM, 0);
        check_refused("U out of range, wide PAGE of that U", u, bytes, ROOM, 1);
        fill(bytes, kinds[0].header, ROOM, 0);
        check_refused("U out of range, PAGE of U 64", u, bytes, 74, 1);
    }
    check_cut_short("U 64 is in range", 64, ack1, 0, 4);
    check_cut_short("U 128 is in range", 128, ack1, 0, 4);
    check_cut_short("U 4032 is in range", 4032, ack1, 0, 4);
    check_cut_short("U 4096 is in range", 4096, ack1, 0, 4);
}

/* The daemon: it holds what has arrived and takes whole records off its head. */
struct daemon {
    uint64_t u;
    uint8_t held[2 * ROOM];
    size_t waiting;
    char taken[64]; /* the kinds of the records taken, a digit each, in order */
    size_t records;
    size_t tests;
    uint64_t last; /* the word that ended the walk: cut short or a refusal */
    int broken;    /* a wrong count of bytes or tests, or cut short twice at one stage */
};

static void arrive(struct daemon *d, const uint8_t *bytes, size_t len)
{
    size_t at = 0;

    memcpy(d->held + d->waiting, bytes, len);
    d->waiting += len;
    for (;;) {
        uint64_t word = record_test(d->u, d->held + at, d->waiting - at);
        size_t used = record_used(word);

        d->last = word;
        if (record_cut_short(word) || record_number(word) != 0)
            break;
        if (used == 0 || used > d->waiting - at || d->records == sizeof d->taken - 1) {
            d->broken = 1;
            break;
        }
        d->taken[d->records++] = (char)('0' + record_kind(word));
        at += used;
    }
    memmove(d->held, d->held + at, d->waiting - at);
    d->waiting -= at;
}

/* What a walk over bytes ends with. */
struct end {
    const char *taken; /* the kinds of the records taken, a digit each, in order */
    size_t left;       /* bytes that wait */
    uint64_t last;     /* the last word: cut short or a refusal */
};

static void check_end(const char *what, const char *how, const struct daemon *d, struct end want,
                      const uint8_t *bytes, size_t len)
{
    if (!d->broken && strcmp(d->taken, want.taken) == 0 && d->waiting == want.left &&
        d->last == want.last) {
        passed++;
        return;
    }
    if (!fails())
        return;
    printf("FAILED the daemon: %s, %s\n", what, how);
    print_input(d->u, bytes, len);
    printf("  wanted: kinds %s, %zu bytes left\n", want.taken, want.left);
    print_word("wanted last", want.last);
    printf("  got: kinds %s, %zu bytes left%s\n", d->taken, d->waiting,
           d->broken ? ", broken" : "");
    print_word("got last", d->last);
}

/* One case: the daemon gets the bytes a chunk at a time. */
static void check_daemon(const char *what, uint64_t u, const uint8_t *bytes, size_t len,
                         size_t chunk, struct end want)
{
    static struct daemon d;
    char how[40];
    size_t at = 0;

    begin(what, u, bytes, len);
    memset(&d, 0, sizeof d);
    d.u = u;
    do {
        size_t some = len - at < chunk ? len - at : chunk;

        arrive(&d, bytes + at, some);
        at += some;
    } while (at < len && !d.broken && record_number(d.last) == 0);
    snprintf(how, sizeof how, "in chunks of %zu", chunk);
    check_end(what, how, &d, want, bytes, len);
}

/*
 * Receives what is missing of the record under way, and no byte more, until it is whole, refused,
 * or the bytes are at their end. How many bytes were received.
 */
static size_t receive_record(struct daemon *d, const uint8_t *bytes, size_t len)
{
    unsigned cut[2] = {0, 0}; /* how often it was cut short in the header, and in the body */
    size_t at = 0;

    for (;;) {
        uint64_t word = record_test(d->u, d->held, d->waiting);
        size_t missing = record_missing(word);
        size_t some = missing < len - at ? missing : len - at;

        d->last = word;
        d->tests++;
        if (missing != 0 && some == missing && cut[d->waiting >= 4]++ != 0)
            d->broken = 1; /* what was missing has come, and it is cut short there again */
        if (some == 0 || d->broken || d->waiting + some > sizeof d->held)
            return at;
        memcpy(d->held + d->waiting, bytes + at, some);
        d->waiting += some;
        at += some;
    }
}

/*
 * One case: the daemon receives exactly what is missing, again and again. So it holds one record at
 * most, and tests each three times: with no byte, with the header and with the whole record.
 */
static void check_exact(const char *what, uint64_t u, const uint8_t *bytes, size_t len,
                        struct end want, size_t tests)
{
    static struct daemon d;
    char how[60];
    size_t at = 0;

    begin(what, u, bytes, len);
    memset(&d, 0, sizeof d);
    d.u = u;
    for (;;) {
        at += receive_record(&d, bytes + at, len - at);
        if (d.broken || record_number(d.last) != 0 || record_cut_short(d.last))
            break;
        if (record_used(d.last) != d.waiting || d.records == sizeof d.taken - 1) {
            d.broken = 1;
            break;
        }
        d.taken[d.records++] = (char)('0' + record_kind(d.last));
        d.waiting = 0;
        d.broken = d.tests != 3 * d.records;
    }
    d.broken |= d.tests != tests;
    snprintf(how, sizeof how, "by what is missing, %zu tests and not %zu", d.tests, tests);
    check_end(what, how, &d, want, bytes, len);
}

/* Appends a record of row k of the table of kinds. */
static size_t append(uint8_t *to, size_t at, size_t k, uint8_t first)
{
    fill(to + at, kinds[k].header, kinds[k].whole, first);
    return at + kinds[k].whole;
}

static const size_t chunks[] = {1, 2, 3, 4, 5, 8, 13, 73, 74, 75, 100, 500};

/* A stream that ends in a whole record or in one cut short: in chunks, and by what is missing. */
static void check_stream(const char *what, uint64_t u, const uint8_t *bytes, size_t len,
                         struct end want, size_t tests)
{
    for (size_t c = 0; c < SIZE(chunks); c++)
        check_daemon(what, u, bytes, len, chunks[c], want);
    check_daemon(what, u, bytes, len, len + 1, want);
    check_exact(what, u, bytes, len, want, tests);
}

/* Two checkpoints at U 64: 2 BLOCKs, 1 PAGE; then 1 PAGE only. */
static size_t two_checkpoints(uint8_t *bytes)
{
    static const uint8_t rows[] = {1, 1, 0, 2, 3, 0, 2, 3};
    size_t n = 0;

    for (size_t i = 0; i < SIZE(rows); i++)
        n = append(bytes, n, rows[i], (uint8_t)(16 * (i + 1)));
    return n;
}

static void checkpoint_walks(void)
{
    static uint8_t bytes[2 * ROOM];
    size_t n = two_checkpoints(bytes);

    check_stream("two checkpoints", 64, bytes, n, (struct end){"22134134", 0, MISSING(4)}, 25);
    check_stream("less a byte", 64, bytes, n - 1, (struct end){"2213413", 11, MISSING(1)}, 24);
    check_stream("less a body", 64, bytes, n - 8, (struct end){"2213413", 4, MISSING(8)}, 23);
    check_stream("less COMMIT", 64, bytes, n - 12, (struct end){"2213413", 0, MISSING(4)}, 22);
    check_stream("less COMMIT and a byte", 64, bytes, n - 13,
                 (struct end){"221341", 71, MISSING(1)}, 21);
    check_stream("half a PAGE", 64, bytes, 2 * 74 + 30, (struct end){"22", 30, MISSING(44)}, 9);
    check_stream("nothing", 64, bytes, 0, (struct end){"", 0, MISSING(4)}, 1);

    /* A checkpoint at U 4096: BLOCK, PAGE, STATE and COMMIT. */
    n = append(bytes, 0, 10, 0x01);
    n = append(bytes, n, 9, 0x02);
    n = append(bytes, n, 11, 0x03);
    n = append(bytes, n, 12, 0x04);
    check_stream("U 4096", 4096, bytes, n, (struct end){"2134", 0, MISSING(4)}, 13);
    check_stream("U 4096 less a byte", 4096, bytes, n - 1, (struct end){"213", 11, MISSING(1)}, 12);
    check_stream("U 4096, a header", 4096, bytes, 4, (struct end){"", 4, MISSING(4102)}, 2);
    check_daemon("U 4096", 4096, bytes, n, 1500, (struct end){"2134", 0, MISSING(4)});
}

/* Checkpoints of the wide kinds: BLOCK, wide PAGE, STATE and wide COMMIT, twice; then at U 4096. */
static void wide_walks(void)
{
    static const uint8_t rows[] = {1, 14, 2, 15, 14, 2, 15};
    static uint8_t bytes[2 * ROOM];
    size_t n = 0;

    for (size_t i = 0; i < SIZE(rows); i++)
        n = append(bytes, n, rows[i], (uint8_t)(16 * (i + 1)));
    check_stream("two wide", 64, bytes, n, (struct end){"2839839", 0, MISSING(4)}, 22);
    check_stream("wide less a byte", 64, bytes, n - 1, (struct end){"283983", 15, MISSING(1)}, 21);
    check_stream("wide less a body", 64, bytes, n - 12, (struct end){"283983", 4, MISSING(12)}, 20);
    check_stream("a wide PAGE's header", 64, bytes, 74 + 4, (struct end){"2", 4, MISSING(72)}, 5);
    check_stream("half a wide PAGE", 64, bytes, 74 + 30, (struct end){"2", 30, MISSING(46)}, 6);

    /* The record test has no M: records of both widths may follow each other. */
    n = append(bytes, n, 0, 0x81);
    n = append(bytes, n, 3, 0x82);
    check_stream("both widths", 64, bytes, n, (struct end){"283983914", 0, MISSING(4)}, 28);

    n = append(bytes, 0, 18, 0x01);
    n = append(bytes, n, 11, 0x02);
    n = append(bytes, n, 19, 0x03);
    check_stream("wide at U 4096", 4096, bytes, n, (struct end){"839", 0, MISSING(4)}, 10);
    check_stream("its header", 4096, bytes, 4, (struct end){"", 4, MISSING(4104)}, 2);
    check_daemon("wide at U 4096", 4096, bytes, n, 1500, (struct end){"839", 0, MISSING(4)});
}

/* What is no record stops the daemon there. It is found when its header is whole. */
static void stopped_walks(void)
{
    static uint8_t bytes[2 * ROOM];
    size_t n = two_checkpoints(bytes);
    struct end activation = {"22134134", 8, RECORD_BAD_KIND};
    struct end damaged = {"2", n - 74, RECORD_BAD_LENGTH};
    struct end other_u = {"", n, RECORD_BAD_LENGTH};
    struct end bad_u = {"", n, RECORD_BAD_U};

    memcpy(bytes + n, activation0, sizeof activation0);
    check_daemon("an activation behind", 64, bytes, n + 8, n + 8, activation);
    activation.left = 4;
    check_daemon("an activation behind", 64, bytes, n + 8, 1, activation);
    check_exact("an activation behind", 64, bytes, n + 8, activation, 26);
    check_stream("an activation cut", 64, bytes, n + 3, (struct end){"22134134", 3, MISSING(1)},
                 26);

    bytes[74]++; /* the length of the second BLOCK */
    check_daemon("a damaged length", 64, bytes, n, n, damaged);
    damaged.left = 4;
    check_daemon("a damaged length", 64, bytes, n, 1, damaged);
    check_exact("a damaged length", 64, bytes, n, damaged, 5);
    bytes[74]--;

    check_daemon("another U", 128, bytes, n, n, other_u);
    other_u.left = 4;
    check_exact("another U", 128, bytes, n, other_u, 2);
    check_daemon("a U out of range", 65, bytes, n, n, bad_u);
    bad_u.left = 0;
    check_exact("a U out of range", 65, bytes, n, bad_u, 1);
}

/* ACKs on their way back, with E3's at the head. */
static void ack_walks(void)
{
    static uint8_t bytes[2 * ROOM];
    size_t n = 0;

    for (uint8_t e = 1; e <= 40; e++) {
        memcpy(bytes + n, ack1, sizeof ack1);
        bytes[n + 4] = e;
        n += sizeof ack1;
    }
    check_stream("40 ACKs", 64, bytes, n,
                 (struct end){"5555555555555555555555555555555555555555", 0, MISSING(4)}, 121);
    check_stream("40 ACKs less 5 bytes", 4096, bytes, n - 5,
                 (struct end){"555555555555555555555555555555555555555", 3, MISSING(1)}, 119);
}

/*
 * One case of the disk choice. It is called twice: with the area where it lies, and with the area
 * ending where the readable memory ends.
 */
static void check_choice(const char *what, const uint8_t *primary, size_t primary_len,
                         const uint8_t *standby, size_t standby_len, const uint8_t *area,
                         size_t area_len, uint64_t want)
{
    uint64_t got, again;

    begin(what, 0, area, area_len);
    got = disk_choice(primary, primary_len, standby, standby_len, area, area_len);
    memcpy(edge - area_len, area, area_len);
    again = disk_choice(primary, primary_len, standby, standby_len, edge - area_len, area_len);

    if (got == want && again == want) {
        passed++;
        return;
    }
    if (!fails())
        return;
    printf("FAILED the disk choice: %s, disks of %zu and %zu bytes\n", what, primary_len,
           standby_len);
    printf("  area,");
    print_bytes(area, area_len);
    printf("  wanted %llu, got %llu and %llu\n", (unsigned long long)want,
           (unsigned long long)got, (unsigned long long)again);
}

/* What an area gives, with disks of several lengths that are equal, and that are not. */
static void check_area(const char *what, const uint8_t *area, size_t len, uint64_t want)
{
    static const size_t lengths[] = {0, 1, 7, 8, 64, 128, 255, 256, 4096};
    static uint8_t primary[4096], standby[4096];

    memset(primary, 0x11, sizeof primary);
    memset(standby, 0x22, sizeof standby);
    for (size_t p = 0; p < SIZE(lengths); p++)
        for (size_t s = 0; s < SIZE(lengths); s++)
            check_choice(what, primary, lengths[p], standby, lengths[s], area, len,
                         p == s ? want : DISK_BAD_LENGTH);
}

static void disk_choices(void)
{
    static const uint8_t zeros[64];
    static const uint8_t disk[64] = {1};
    /* Areas that are near an activation: by the header alone they are told apart. */
    static const struct {
        const char *what;
        uint8_t area[8];
        uint64_t want;
    } rows[] = {
        {"an activation at 0", {4, 0, 6, 0, 0, 0, 0, 0}, DISK_STANDBY},
        {"an activation at 1", {4, 0, 6, 0, 1, 0, 0, 0}, DISK_STANDBY},
        {"an activation at 256", {4, 0, 6, 0, 0, 1, 0, 0}, DISK_STANDBY},
        {"an activation at the last epoch", {4, 0, 6, 0, 255, 255, 255, 255}, DISK_STANDBY},
        {"an ACK", {4, 0, 5, 0, 1, 0, 0, 0}, DISK_BAD_AREA},
        {"kind 7", {4, 0, 7, 0, 1, 0, 0, 0}, DISK_BAD_AREA},
        {"kind 0", {4, 0, 0, 0, 1, 0, 0, 0}, DISK_BAD_AREA},
        {"kind 262", {4, 0, 6, 1, 1, 0, 0, 0}, DISK_BAD_AREA},
        {"length 0", {0, 0, 6, 0, 1, 0, 0, 0}, DISK_BAD_AREA},
        {"length 3", {3, 0, 6, 0, 1, 0, 0, 0}, DISK_BAD_AREA},
        {"length 5", {5, 0, 6, 0, 1, 0, 0, 0}, DISK_BAD_AREA},
        {"length 8", {8, 0, 6, 0, 1, 0, 0, 0}, DISK_BAD_AREA},
        {"length 260", {4, 1, 6, 0, 1, 0, 0, 0}, DISK_BAD_AREA},
        {"big-endian fields", {0, 4, 0, 6, 0, 0, 0, 1}, DISK_BAD_AREA},
        {"kind before length", {6, 0, 4, 0, 1, 0, 0, 0}, DISK_BAD_AREA},
        {"an epoch alone", {0, 0, 0, 0, 1, 0, 0, 0}, DISK_BAD_AREA},
        {"all ones", {255, 255, 255, 255, 255, 255, 255, 255}, DISK_BAD_AREA},
    };
    uint8_t area[8];
    char what[80];

    check_area("an area of zeros", zeros, 8, DISK_PRIMARY);
    for (size_t r = 0; r < SIZE(rows); r++)
        check_area(rows[r].what, rows[r].area, 8, rows[r].want);

    /* Both disks empty, and one and the same disk twice. */
    check_choice("empty disks, zeros", zeros, 0, zeros, 0, zeros, 8, 256);
    check_choice("empty disks, E5's area", zeros, 0, zeros, 0, activation0, 8, 512);
    check_choice("the same disk twice, zeros", disk, 64, disk, 64, zeros, 8, 256);
    check_choice("the same disk twice, E5's area", disk, 64, disk, 64, activation0, 8, 512);

    /* Another length of the area, with the disks equally long and not. */
    for (size_t len = 0; len <= 16; len++) {
        uint8_t longer[16] = {4, 0, 6, 0, 1, 0, 0, 0};

        snprintf(what, sizeof what, "%zu zeros", len);
        check_area(what, zeros, len, len == 8 ? 256 : 1);
        snprintf(what, sizeof what, "an activation in %zu bytes", len);
        check_area(what, longer, len, len == 8 ? 512 : 1);
        snprintf(what, sizeof what, "an ACK in %zu bytes", len);
        longer[2] = 5;
        check_area(what, longer, len, len == 8 ? 12 : 1);
    }

    /* Each byte of an area of zeros, and of an activation, set to each value. */
    for (size_t at = 0; at < 8; at++)
        for (unsigned b = 0; b < 256; b++) {
            memset(area, 0, 8);
            area[at] = (uint8_t)b;
            snprintf(what, sizeof what, "zeros, byte %zu is %u", at, b);
            check_choice(what, disk, 64, zeros, 64, area, 8, b == 0 ? 256 : 12);
            check_choice(what, disk, 64, zeros, 63, area, 8, 1);

            memcpy(area, activation0, 8);
            area[at] = (uint8_t)b;
            snprintf(what, sizeof what, "an activation, byte %zu is %u", at, b);
            check_choice(what, disk, 64, zeros, 64, area, 8,
                         at >= 4 || b == activation0[at] ? 512 : 12);
        }
}

int main(void)
{
    make_edge();
    signal(SIGSEGV, read_outside);
    words();
    examples();
    each_kind();
    short_headers();
    refused_headers();
    lengths_by_u();
    u_out_of_range();
    checkpoint_walks();
    wide_walks();
    stopped_walks();
    ack_walks();
    disk_choices();
    printf("%u passed, %u failed\n", passed, failed);
    return failed != 0;
}
