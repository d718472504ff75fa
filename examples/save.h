/*
 * The standby keeps the records of the last received checkpoint as they came, so that support can
 * save that checkpoint on file and compare it (files/compare.c).
 */

#ifndef SAVE_H
#define SAVE_H

#include <stddef.h>
#include <stdint.h>

/* Records one behind the other, in as much memory as they need. */
struct records {
    uint8_t *bytes;
    size_t length, space;
};

struct kept {
    struct records under_way, received; /* of the checkpoint under way, and of the last received */
};

/* The standby has read this record; with is_commit the checkpoint under way is received. */
void keep_record(struct kept *k, const uint8_t *record, size_t length, int is_commit);

/*
 * Saves the last received checkpoint: its normal form in the file of this name, and its records as
 * they came in one of the same name with .raw behind it. Returns its bytes in normal form, or 0
 * where none was received.
 */
size_t save_checkpoint(const struct kept *k, const char *name);

#endif
