/*
 * A primary and a standby, each in a process, with a socket between them: a daemon to begin from.
 *
 * run_primary is the primary's box: a guest writes its memory and disk and sends packets (guest.h),
 * and checkpoints are made by the box's own clock. run_standby is the standby's box. The program
 * that starts the two, kills the primary and compares what the standby took over is trial.c.
 *
 * Each box has a sum of its memory for drills (daemon.h): the primary's is kept up to date at every
 * checkpoint, page by page, and the standby's is taken of the whole memory, where no guest runs.
 */

#include "daemon.h"

#include <stdio.h>
#include <stdlib.h>

#include "guest.h"
#include "link.h"
#include "trial.h"

enum {
    GUEST_MS = 1,           /* from one run of the guest to the next */
    GUEST_STEPS = 16,       /* its steps in each */
    CHECKPOINT_MS = 5,      /* from one checkpoint to the next */
    PRIMARY_TICK_MS = 1000, /* longer than the standby's, since the primary ends when alone */
    STANDBY_TICK_MS = 250,  /* while records may still come */
    LINK_DOWN_TICK_MS = 20, /* the standby's once the link is down */
    FLUSH_MS = 20           /* a slow disk: one block, and more only where slots are wanted */
};

uint32_t accepted(uint64_t answer, const char *call)
{
    if (answer_number(answer) != NUMBER_ACCEPTED) {
        fprintf(stderr, "daemon: %s: refused with %u\n", call, answer_number(answer));
        exit(2);
    }
    return answer_value(answer);
}

/* The whole sum once, while no guest runs yet. */
static void start_sum(struct primary *p)
{
    p->sum = accepted(primary_sum(LENT(p->state), LENT(p->memory)), "sum");
    for (size_t page = 0; page < M; page++)
        p->parts[page] = accepted(pair_page_sum(LENT(p->memory), U, page), "page sum");
}

void start_pair(struct primary *p, struct standby *s)
{
    static const uint64_t settings[SETTINGS_WORDS] = {U, M, D, B, S, Q, L, T};
    uint8_t processor[PROCESSOR_BYTES];

    images_after(0, p->memory, p->disk);
    processor_after(0, processor);
    accepted(pair_start(LENT(settings), processor, LENT(p->memory), LENT(p->disk), LENT(p->dirty),
                        LENT(p->held), LENT(p->stream), LENT(s->memory), LENT(s->disk),
                        LENT(s->staged_pages), LENT(s->staged_marks), LENT(s->staged_blocks),
                        LENT(s->area), LENT(p->state), LENT(s->state), s->pending, s->processor),
             "start");
    start_sum(p);
}

/* ---- The primary's box. ---- */

static uint64_t step_at_primary(struct primary *p, const struct step *s)
{
    switch (s->action) {
    case MEMORY_WRITE:
        return primary_memory_write(LENT(p->state), LENT(p->memory), LENT(p->dirty), s->unit,
                                    s->offset, s->bytes, s->length);
    case DISK_WRITE:
        return primary_disk_write(LENT(p->state), LENT(p->disk), LENT(p->stream), s->unit,
                                  s->bytes, s->length);
    default:
        return primary_packet(LENT(p->state), LENT(p->held), s->unit, s->bytes, s->length);
    }
}

/* The guest waits with a step for which there is no space yet, and makes it in a later run. */
static void run_guest(struct primary *p)
{
    struct step s;
    uint64_t answer;

    for (int i = 0; i < GUEST_STEPS; i++) {
        make_step(p->steps, &s);
        answer = step_at_primary(p, &s);
        switch (answer_number(answer)) {
        case NUMBER_ALLOWANCE_USED: /* until the next checkpoint */
        case NUMBER_STREAM_FULL:    /* until some of it is sent */
        case NUMBER_QUEUE_FULL:     /* until packets have left */
            return;
        }
        accepted(answer, "a step of the guest");
        p->steps++;
    }
}

/*
 * Makes the sum that of memory now: only the parts of the dirty pages are taken, since the guest
 * stands still meanwhile. A page's old bytes are gone, so its old part was kept. Made again while
 * the guest waits, it changes nothing.
 */
static void update_sum(struct primary *p)
{
    for (size_t page = 0; page < M; page++)
        if (p->dirty[page / 64] >> page % 64 & 1) {
            uint32_t part = accepted(pair_page_sum(LENT(p->memory), U, page), "page sum");
            p->sum += part - p->parts[page]; /* modulo 2^32 */
            p->parts[page] = part;
        }
}

/*
 * Where the stream lacks the space, the guest waits until a later call finds it: else the guest
 * could take it with a block that it writes again and again, to which B sets no limit.
 */
static void make_checkpoint(struct primary *p)
{
    uint8_t processor[PROCESSOR_BYTES];
    uint64_t answer;

    processor_after(p->steps, processor);
    update_sum(p); /* first, since the call clears the marks */
    trial_checkpoint(p->state[PRIMARY_EPOCH], p->steps);
    answer = primary_checkpoint(LENT(p->state), LENT(p->memory), LENT(p->dirty), LENT(p->stream),
                                processor);
    p->guest_waits = answer_number(answer) == NUMBER_STREAM_FULL;
    if (!p->guest_waits && accepted(answer, "checkpoint") % DRILL_EPOCHS == 0)
        trial_primary_sum(p, answer_value(answer));
}

static void send_stream(struct primary *p)
{
    struct connection *k = &p->link;
    size_t space = sizeof k->out - k->out_length;

    if (k->fd < 0)
        return;
    k->out_length += accepted(primary_drain(LENT(p->state), LENT(p->stream), space,
                                            k->out + k->out_length, space), "drain");
    transmit(k);
}

/* The loop ends: each closed epoch has at most one ACK, and any other is refused. */
static void read_acks(struct primary *p)
{
    struct connection *k = &p->link;

    while (receive(k)) {
        uint64_t answer = primary_acknowledge(LENT(p->state), k->in, k->in_length);
        trial_acknowledge(answer);
        k->missing = answer_missing(answer);
        if (answer_number(answer) == NUMBER_ACCEPTED)
            k->in_length = 0; /* the ACK was all that had come */
        else if (!answer_cut_short(answer))
            drop(k);
    }
}

/*
 * Hands every packet of the port that may leave to its cable. One that the cable does not take now
 * is kept: returns the cable then, else -1.
 */
static int release_packets(struct primary *p, size_t port)
{
    struct card *c = &p->cards[port];

    for (;;) {
        if (c->packet_length == 0) {
            uint64_t answer = primary_take(LENT(p->state), LENT(p->held), port, LENT(c->packet));
            if (answer_number(answer) == NUMBER_NOTHING_FREE)
                return -1;
            c->packet_length = accepted(answer, "take");
        }
        if (!send_packet(c->cable, c->packet, c->packet_length))
            return c->cable;
        c->packet_length = 0;
    }
}

/*
 * Ends when the primary is alone. Its packets could then leave unprotected, but only after the
 * standby was shut off for certain: nothing here can do that, so the guest ends.
 */
void run_primary(struct primary *p)
{
    int64_t guest = milliseconds(), checkpoint = guest, tick = guest; /* when each was last */
    int full[PORTS]; /* the cables for which a packet is kept, or -1 */

    while (!p->state[PRIMARY_ALONE]) {
        for (size_t port = 0; port < PORTS; port++) /* a full cable holds back no other port's */
            full[port] = release_packets(p, port);
        wait_until(guest + GUEST_MS, &p->link, LENT(full)); /* the guest's time comes first */
        read_acks(p);
        if (is_due(&guest, GUEST_MS) && !p->guest_waits)
            run_guest(p);
        if (is_due(&checkpoint, CHECKPOINT_MS))
            make_checkpoint(p);
        if (is_due(&tick, PRIMARY_TICK_MS))
            accepted(primary_tick(LENT(p->state)), "tick");
        send_stream(p);
    }
    fprintf(stderr, "daemon: the primary is alone and ends\n");
}

/* ---- The standby's box. ---- */

static uint32_t flush(struct standby *s, size_t blocks)
{
    uint32_t stored = accepted(standby_flush(LENT(s->state), s->pending, s->processor,
                                             LENT(s->staged_blocks), LENT(s->disk), blocks),
                               "flush");

    trial_flush(stored);
    return stored;
}

/* receive does not ask whether what is missing fits: so the longest record of any pair must. */
_Static_assert(sizeof((struct connection *)0)->in >= PAGE_BYTES(4096, 65536), "in is too short");

/* Receives what is missing of a record until it is whole. Returns 0 where some has not come yet. */
static int receive_record(struct connection *k)
{
    while (!has_record(k) && receive(k)) {
        uint64_t word = record_test(U, k->in, k->in_length);
        trial_test();
        k->missing = record_missing(word);
        if (record_number(word) != 0) /* where the next record begins is not known any more */
            drop(k);
    }
    return has_record(k);
}

/* Reads the record that has come, after a flush if its block finds no slot. */
static uint64_t read_record(struct standby *s)
{
    struct connection *k = &s->link;
    uint64_t answer;

    do
        answer = standby_read(LENT(s->state), s->pending, s->processor, LENT(s->memory),
                              LENT(s->staged_pages), LENT(s->staged_marks),
                              LENT(s->staged_blocks), k->in, k->in_length,
                              k->out + k->out_length, sizeof k->out - k->out_length);
    while (answer_number(answer) == NUMBER_SLOTS_FULL && flush(s, 1) > 0);
    return answer;
}

/* An ACK must find space behind those not sent yet: without it no record is read. */
static int has_ack_space(const struct connection *k)
{
    return sizeof k->out - k->out_length >= ACK_RECORD;
}

/*
 * Reads up to a COMMIT at most, MOST_RECORDS + M + 2 records: then its ACK is sent, and flushes and
 * ticks have their turn, however fast records come. Returns whether it has read a COMMIT.
 */
static int read_records(struct standby *s)
{
    struct connection *k = &s->link;
    int committed = 0;

    while (!committed && receive_record(k) && has_ack_space(k)) {
        uint64_t answer = read_record(s);
        if (answer_number(answer) != NUMBER_ACCEPTED) {
            drop(k);
            return 0;
        }
        committed = record_is_commit(answer_value(answer));
        keep_record(&s->kept, k->in, k->in_length, committed);
        k->in_length = 0; /* the record was all that had come */
        if (committed)
            k->out_length += ACK_RECORD;
        trial_record(s, answer_value(answer));
    }
    return committed;
}

/*
 * The whole sum of the checkpoint that was received last: no guest waits for it here. The order is
 * the standby's own, here the last page first; any that names each page once gives the same sum.
 */
static void take_sum(struct standby *s)
{
    for (size_t i = 0; i < M; i++)
        s->order[i] = M - 1 - i;
    trial_standby_sum(s, accepted(standby_sum(LENT(s->state), s->pending, s->processor,
                                              LENT(s->memory), LENT(s->order)), "sum"));
}

/* Whatever made it silent: the primary must not run any more once the standby is active. */
static uint32_t take_over(struct standby *s)
{
    shut_off_primary();
    drop(&s->link);
    flush(s, S);
    return accepted(standby_activate(LENT(s->state), s->pending, s->processor, LENT(s->area)),
                    "activation"); /* a real box now syncs its disk and the area */
}

/* Takes over after T ticks in a row without an accepted record. */
uint32_t run_standby(struct standby *s)
{
    int64_t disk = milliseconds(), tick = disk; /* when each was last */

    while (s->state[STANDBY_MODE] == MODE_RECEIVING) {
        int64_t tick_ms = s->link.fd >= 0 ? STANDBY_TICK_MS : LINK_DOWN_TICK_MS;
        wait_until(tick + tick_ms, &s->link, NULL, 0);
        transmit(&s->link); /* first: a record is left unread until there is space for its ACK */
        if (read_records(s) && s->state[STANDBY_RECEIVED] % DRILL_EPOCHS == 0) {
            transmit(&s->link); /* the ACK first: the guest's packets wait for it */
            take_sum(s);
        }
        if (is_due(&disk, FLUSH_MS))
            flush(s, 1);
        if (is_due(&tick, tick_ms))
            accepted(standby_tick(LENT(s->state), s->pending, s->processor,
                                  LENT(s->staged_marks)), "tick");
    }
    return take_over(s);
}
