/*
 * What daemon.c calls of its trial. A daemon has no use for these. In place of the last three it
 * logs the sums of a drill for comparison, and has a power switch or the like.
 */

#ifndef TRIAL_H
#define TRIAL_H

#include <stdint.h>

#include "daemon.h"

/* The primary makes this checkpoint after this many steps of the guest. */
void trial_checkpoint(uint64_t epoch, uint64_t steps);

/* The primary was given what has come of an ACK, with this answer. */
void trial_acknowledge(uint64_t answer);

/* The standby has tested what has come of a record. */
void trial_test(void);

/* The standby has read a record of this kind. Where this is the place, the primary is lost now. */
void trial_record(struct standby *s, unsigned kind);

/* The standby has stored so many blocks. */
void trial_flush(uint32_t stored);

/* A drill: the primary has made this checkpoint, and its sum is that of the checkpoint's memory. */
void trial_primary_sum(const struct primary *p, uint32_t epoch);

/* The standby has taken this sum of the last received checkpoint's memory. */
void trial_standby_sum(struct standby *s, uint32_t sum);

/* Returns once the primary does not run any more. */
void shut_off_primary(void);

#endif
