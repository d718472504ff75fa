#include "save.h"

#include <stdio.h>
#include <stdlib.h>
#include <string.h>

#include "daemon.h"

static void *memory_for(void *old, size_t length)
{
    void *bytes = realloc(old, length);

    if (bytes == NULL)
        die("realloc");
    return bytes;
}

void keep_record(struct kept *k, const uint8_t *record, size_t length, int is_commit)
{
    struct records *r = &k->under_way, received;

    if (r->space - r->length < length) {
        r->space = 2 * (r->length + length);
        r->bytes = memory_for(r->bytes, r->space);
    }
    memcpy(r->bytes + r->length, record, length);
    r->length += length;
    if (is_commit) { /* the two change places, and the next checkpoint begins */
        received = k->under_way;
        k->under_way = k->received;
        k->under_way.length = 0;
        k->received = received;
    }
}

static void write_file(const char *name, const uint8_t *bytes, size_t length)
{
    FILE *file = fopen(name, "wb");

    if (file == NULL || fwrite(bytes, 1, length, file) != length || fclose(file) != 0)
        die(name);
}

size_t save_checkpoint(const struct kept *k, const char *name)
{
    const struct records *r = &k->received;
    char *raw_name;
    uint8_t *normal;
    size_t length;

    if (r->length == 0)
        return 0;
    normal = memory_for(NULL, r->length); /* a normal form is never longer than its checkpoint */
    length = accepted(pair_normal_form(U, M, D, B, r->bytes, r->length, normal, r->length),
                      "normal form");
    write_file(name, normal, length);
    raw_name = memory_for(NULL, strlen(name) + sizeof ".raw");
    strcat(strcpy(raw_name, name), ".raw");
    write_file(raw_name, r->bytes, r->length);
    free(raw_name);
    free(normal);
    return length;
}
