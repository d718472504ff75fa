/* What daemon.c has of the system: a clock, and sockets that never make it wait. */

#ifndef CONNECTION_H
#define CONNECTION_H

#include <stddef.h>
#include <stdint.h>

/* Prints what failed and errno, and ends the process with status 2. */
void die(const char *what);

/* The time in milliseconds. */
int64_t milliseconds(void);

/*
 * Whether the interval has passed since the last time, which is then set to now: an interval that
 * was missed is not made up for.
 */
int is_due(int64_t *last, int64_t interval);

/* One end of a link: what has come of one record and is not read yet, and what is not sent yet. */
struct connection {
    int fd; /* below 0 once the connection is dropped */
    size_t in_length, out_length;
    size_t missing; /* bytes of the record still to come, by its last test; 0 before the first */
    int has_bytes;  /* by poll(2), until fewer come than are asked for */
    size_t most_moved; /* bytes sent or received at a time; 0: as many as the socket takes */
    uint8_t in[4108], out[4096]; /* in: the longest record of any pair, U + 12 with U 4096 */
};

/* Whether a whole record is there, tested and not read yet. */
int has_record(const struct connection *c);

/*
 * Sleeps until the time has come, or the connection has bytes (not while a whole record is there),
 * or it can send (only where some are left), or one of the other sockets can send (one below 0
 * never can).
 *
 * poll(2) ends this sleep and says whether there is something to receive. A record is tested again
 * only when all the bytes have come that were missing.
 */
void wait_until(int64_t due, struct connection *c, const int *others, size_t count);

/*
 * Takes in what has come of the missing bytes, and no byte behind them. Returns whether none is
 * missing any more. At the end of the bytes, or at an error, the connection is dropped.
 */
int receive(struct connection *c);

/* Sends what the socket takes now; the rest stays for the next time. */
void transmit(struct connection *c);

/* Closes the connection. No byte is left in it. */
void drop(struct connection *c);

/* Whether a socket of packets takes this one now. An error ends the process with status 2. */
int send_packet(int fd, const uint8_t *packet, size_t length);

#endif
