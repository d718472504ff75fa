/*
 * Compares two checkpoints kept on file, by what they name: in whichever order their blocks were
 * written, and however often.
 *
 *     compare U M D B ONE OTHER
 *
 * Each file is one checkpoint of a pair with these settings, as it came over the link or in normal
 * form. It prints that the two are equal, or that their epochs differ, or the first block or page
 * that differs, or that only the processor states do; or the number with which a file is refused,
 * or what is missing of it.
 *
 * Exit status: 0 they are equal, 1 they differ, 2 a file is refused or cannot be read.
 */

#include <errno.h>
#include <stdint.h>
#include <stdio.h>
#include <stdlib.h>
#include <string.h>

#include "link.h"
#include "standby_pair.h"

enum { EQUAL = 0, DIFFERENT = 1, NOT_COMPARED = 2 };

/* A file, in normal form once it is read, and where its next record begins. */
struct file {
    const char *name;
    uint8_t *bytes;
    size_t length, at;
};

/* A record of a normal form: its kind, its bytes, and the page or block that it is of. */
struct record {
    unsigned kind;
    const uint8_t *bytes;
    size_t length;
    uint64_t unit;
};

static size_t settings[4]; /* U M D B */

static void fail(const char *name)
{
    printf("%s: %s\n", name, strerror(errno));
    exit(NOT_COMPARED);
}

static uint8_t *memory_for(size_t length)
{
    uint8_t *bytes = malloc(length > 0 ? length : 1);

    if (bytes == NULL)
        fail("malloc");
    return bytes;
}

static void read_file(struct file *f)
{
    FILE *from = fopen(f->name, "rb");
    long length;

    if (from == NULL || fseek(from, 0, SEEK_END) != 0 || (length = ftell(from)) < 0)
        fail(f->name);
    rewind(from);
    f->length = (size_t)length;
    f->bytes = memory_for(f->length);
    if (fread(f->bytes, 1, f->length, from) != f->length)
        fail(f->name);
    fclose(from);
}

/* Puts the normal form in place of the file's bytes. It is never longer than these. */
static void normalise(struct file *f)
{
    uint8_t *normal = memory_for(f->length);
    uint64_t answer = pair_normal_form(settings[0], settings[1], settings[2], settings[3],
                                       f->bytes, f->length, normal, f->length);

    if (answer_cut_short(answer)) {
        printf("%s: cut short, at least %zu bytes are missing\n", f->name, answer_missing(answer));
        exit(NOT_COMPARED);
    }
    if (answer_number(answer) != NUMBER_ACCEPTED) {
        printf("%s: refused with %u\n", f->name, answer_number(answer));
        exit(NOT_COMPARED);
    }
    free(f->bytes);
    f->bytes = normal;
    f->length = answer_value(answer);
}

/* A number of so many bytes, the lowest first. */
static uint64_t number_at(const uint8_t *bytes, size_t count)
{
    return count == 0 ? 0 : bytes[0] + 256 * number_at(bytes + 1, count - 1);
}

/* The next record. All are whole, and the last is the COMMIT. */
static struct record next_record(const struct file *f)
{
    uint64_t word = record_test(settings[0], f->bytes + f->at, f->length - f->at);
    struct record r = {record_kind(word), f->bytes + f->at, record_used(word), 0};

    if (r.kind == RECORD_BLOCK || record_is_page(r.kind))
        r.unit = number_at(r.bytes + 8, r.kind == RECORD_WIDE_PAGE ? 4 : 2);
    return r;
}

/* The place of a record's kind in a normal form. */
static int place(unsigned kind)
{
    return kind == RECORD_BLOCK ? 0 : record_is_page(kind) ? 1 : kind == RECORD_STATE ? 2 : 3;
}

/* Whether one comes before the other: its kind does, or its block or page. */
static int is_before(const struct record *one, const struct record *other)
{
    if (place(one->kind) != place(other->kind))
        return place(one->kind) < place(other->kind);
    return one->unit < other->unit;
}

static void tell(const struct record *r, const char *what, const char *where)
{
    static const char *const kinds[] = {"block", "page", "the processor state", "the COMMIT"};

    printf("different: %s", kinds[place(r->kind)]);
    if (place(r->kind) < 2)
        printf(" %llu", (unsigned long long)r->unit);
    printf(" %s%s\n", what, where);
}

/* All records of a file are of its epoch. */
static uint64_t epoch(const struct file *f)
{
    return number_at(f->bytes + 4, 4);
}

/* Goes through both normal forms to the first record that differs. */
static int compare(struct file *one, struct file *other)
{
    if (epoch(one) != epoch(other)) {
        printf("different: the epochs are %llu and %llu\n", (unsigned long long)epoch(one),
               (unsigned long long)epoch(other));
        return DIFFERENT;
    }
    while (one->at < one->length && other->at < other->length) {
        struct record a = next_record(one), b = next_record(other);

        if (is_before(&a, &b) || is_before(&b, &a)) {
            int first = is_before(&a, &b);
            tell(first ? &a : &b, "is only in ", first ? one->name : other->name);
            return DIFFERENT;
        }
        if (memcmp(a.bytes, b.bytes, a.length) != 0) {
            tell(&a, "has other bytes", "");
            return DIFFERENT;
        }
        one->at += a.length;
        other->at += b.length;
    }
    printf("equal: %zu bytes in normal form\n", one->length);
    return EQUAL;
}

int main(int argc, char **argv)
{
    struct file one = {0}, other = {0};

    if (argc != 7) {
        fprintf(stderr, "usage: compare U M D B ONE OTHER\n");
        return NOT_COMPARED;
    }
    for (int i = 0; i < 4; i++)
        settings[i] = strtoul(argv[1 + i], NULL, 10);
    one.name = argv[5];
    other.name = argv[6];
    read_file(&one);
    read_file(&other);
    normalise(&one);
    normalise(&other);
    return compare(&one, &other);
}
