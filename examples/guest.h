/*
 * The guest that daemon.c runs and that trial.c compares with. It is no part of a daemon.
 *
 * Step n of the guest is the same whenever it is made: so what the guest has after n steps can be
 * made again, and every packet that leaves can be told. Every third step writes the header block,
 * as a database does: in each whole run of the guest (daemon.c) more often than B.
 */

#ifndef GUEST_H
#define GUEST_H

#include <stddef.h>
#include <stdint.h>

#include "daemon.h"

enum { HEADER_BLOCK = 0, HEADER_STEPS = 3 };

/* cc -DHEADER_ONLY=1: the guest writes no other block and sends no packet. */
#ifndef HEADER_ONLY
#define HEADER_ONLY 0
#endif

enum action { MEMORY_WRITE, DISK_WRITE, PACKET };

struct step {
    enum action action;
    size_t unit, offset, length; /* page, block or port; where in it; how many bytes */
    uint8_t bytes[U];
};

/* The guest's next step, after n. */
void make_step(uint64_t n, struct step *s);

/* Its processor state after n steps: their count, as a program counter, and other registers. */
void processor_after(uint64_t n, uint8_t processor[PROCESSOR_BYTES]);
uint64_t steps_of(const uint8_t processor[PROCESSOR_BYTES]);

/* Its memory and disk after n steps, by plain copies. */
void images_after(uint64_t n, uint8_t memory[M * U], uint8_t disk[D * U]);

/* The sum of its memory after n steps, by document 02's words. */
uint32_t sum_after(uint64_t n);

/* Whether these are what the guest has after n steps. A difference is printed. */
int images_equal(uint64_t n, const uint8_t memory[M * U], const uint8_t disk[D * U]);
int processor_equal(uint64_t n, const uint8_t processor[PROCESSOR_BYTES]);

/* How many different blocks it writes in its steps after the first count, up to the second. */
unsigned different_blocks(uint64_t from, uint64_t to);

/* Whether this is the guest's first packet of the port after these steps. Counts up to that. */
int is_next_packet(uint64_t *steps, size_t port, const uint8_t *packet, size_t length);

#endif
