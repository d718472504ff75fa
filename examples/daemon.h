/* The two boxes of daemon.c: what each keeps, and how it is run. */

#ifndef DAEMON_H
#define DAEMON_H

#include <stddef.h>
#include <stdint.h>

#include "connection.h"
#include "save.h"
#include "standby_pair.h"

/*
 * The guest's memory pages, 1 to 65536: cc -DGUEST_PAGES=4097 gives it that many. Above
 * MOST_NARROW_PAGES the PAGEs and COMMITs on the link are wide; daemon.c is the same for both.
 */
#ifndef GUEST_PAGES
#define GUEST_PAGES 64
#endif

/* The settings. L has at least the bytes that a checkpoint of every page needs. */
enum { U = 256, M = GUEST_PAGES, D = 16, B = 4, S = 8, Q = 4096, T = 5 };
#define LEAST_L LEAST_STREAM(U, GUEST_PAGES, B)
enum { L = LEAST_L > 65536 ? LEAST_L : 65536 };

enum { PORTS = MOST_PORT + 1 };

/*
 * A drill is made at each checkpoint whose epoch is a multiple of this: the sums of the two
 * memories are compared. Both boxes know these epochs, so nothing about a drill is on the link.
 */
enum { DRILL_EPOCHS = 4 };

/* A network card, by which the packets of one port leave. Each has a cable of its own. */
struct card {
    int cable;                         /* a socket of packets */
    uint8_t packet[MOST_PACKET_BYTES]; /* one that was taken and that the cable has not yet */
    size_t packet_length;
};

struct primary {
    uint64_t state[PRIMARY_WORDS], dirty[MARK_WORDS(M)];
    uint8_t memory[M * U], disk[D * U], held[Q], stream[L];
    struct connection link;
    struct card cards[PORTS]; /* by port */
    uint32_t sum, parts[M]; /* of memory at the last checkpoint, and each page's part of it */
    uint64_t steps;  /* that the guest has made */
    int guest_waits; /* for a checkpoint that the stream has no space for yet */
};

struct standby {
    uint64_t state[STANDBY_WORDS], staged_marks[MARK_WORDS(M)];
    uint8_t pending[PROCESSOR_BYTES], processor[PROCESSOR_BYTES];
    uint8_t memory[M * U], disk[D * U], staged_pages[M * U], staged_blocks[S * U];
    uint8_t area[AREA_BYTES];
    uint64_t order[M]; /* of the pages in a sum */
    struct connection link;
    struct kept kept; /* the records of the last received checkpoint, for support */
};

/* A lent array: its pointer and its length. */
#define LENT(array) (array), sizeof(array) / sizeof((array)[0])

/* The value of a call that is never refused here: a refusal ends the process with status 2. */
uint32_t accepted(uint64_t answer, const char *call);

/* Starts both ends, before the standby is carried over to its own box. */
void start_pair(struct primary *p, struct standby *s);

/* Runs the guest and its checkpoints. Returns when the primary is alone. */
void run_primary(struct primary *p);

/* Receives checkpoints until the primary is silent, and takes over. Returns the epoch. */
uint32_t run_standby(struct standby *s);

#endif
