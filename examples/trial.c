/*
 * The trial of daemon.c: it runs the two boxes, loses the primary and compares what is taken over.
 *
 * The parent process is the standby's box; the primary's box and the far side of the network are
 * its children. At the place that the command line says the primary is killed; the standby takes
 * over, and its memory, disk and processor state are compared with what the guest had at that
 * checkpoint. Every packet that had left, by the cable of its port, must have been sent before that
 * checkpoint. No record may have been tested before the bytes had come that were missing at its
 * last test, and every PAGE and COMMIT must have been of the width that the guest's pages call for.
 * A block that the guest wrote again and again in an epoch must have been stored once for it. At
 * every drill the sums of the primary's, the standby's and the guest's memory must be equal.
 *
 *     daemon N           kills the primary after the standby has read N records
 *     daemon N KIND      the same after N records of a KIND: page, block, state or commit
 *     daemon N stop      stops it after N records: the link stays open, and nothing more comes
 *     daemon random      kills it after a random number of records
 *     daemon .. pieces   any of these, and both ends send a few bytes at a time
 *     daemon .. damaged  any of these, and the first drill finds a wrong byte at the standby
 *     daemon .. keep F   any of these, and the last received checkpoint is saved in the file F
 *
 * Exit status: 0 all is equal, 1 something differs, was tested too early, is of the wrong width or
 * was stored too often, 2 the program could not do its work.
 */

#define _GNU_SOURCE

#include "trial.h"

#include <poll.h>
#include <signal.h>
#include <stdio.h>
#include <stdlib.h>
#include <string.h>
#include <sys/mman.h>
#include <sys/prctl.h>
#include <sys/socket.h>
#include <sys/wait.h>
#include <unistd.h>

#include "guest.h"

enum {
    STEPS_AFTER = 200,    /* the guest's steps at the standby after the takeover */
    MOST_RANDOM = 2000,   /* records before a kill at random */
    MOST_PLACE = 1000000, /* records before a kill at all */
    PIECE = 3,            /* bytes moved at a time: every header and every ACK is cut */
    MOST_TESTS = 3,       /* of a record: with no byte, with its header, whole */

    /* above the checkpoints that the stream, by their least bytes, and the socket can hold */
    EPOCHS_KEPT = L / (STATE_RECORD + COMMIT_BYTES(GUEST_PAGES)) + 65536
};

/* The place of the loss: after how many records of which kind, 0 is any; and by which signal. */
static unsigned place, place_kind;
static int place_signal = SIGKILL;
static size_t most_moved; /* at a time, 0 is any number */
static int damaged;       /* whether the first drill is to find a wrong byte */
static const char *file;  /* where the last received checkpoint is to be saved, or NULL */

/* How often records were tested: all together, the one under way, and the one tested most. */
struct tests {
    unsigned all, now, most;
};

static unsigned records[RECORD_WIDE_COMMIT + 1]; /* read so far: of each kind, at 0 all of them */
static unsigned other_width;                     /* those of a width that M does not call for */
static struct tests tests;                       /* of these, and of the one not read yet */
static int lost;                                 /* whether the place was reached */
static pid_t primary_process, network_process;

/* BLOCKs read: of the epoch under way, of all received epochs, and of the one that has most. */
static struct {
    unsigned now, received, most;
    unsigned different; /* different blocks of each received epoch, by the guest's steps */
    unsigned stored;    /* blocks that flush has stored */
} blocks;

/* Drills: all of them, and those that found a difference. */
static struct {
    unsigned all, different;
} drills;

/* What the children tell the parent. */
static struct {
    uint64_t steps_at[EPOCHS_KEPT]; /* the guest's at each checkpoint */
    uint32_t sum_at[EPOCHS_KEPT];   /* the primary's at each drill, kept up to date by pages */
    uint32_t whole_at[EPOCHS_KEPT]; /* and taken of the whole memory */
    uint64_t packet_steps[PORTS];   /* its steps up to the last packet that left by each port */
    unsigned packets[PORTS];
    struct tests ack_tests;         /* at the primary, where each is a call of an end */
} *shared;

/* Whether the command line says a place. */
static int read_place(int argc, char **argv)
{
    static const char *const kinds[] = {"stop", "page", "block", "state", "commit"};
    unsigned long number;
    char *end;

    if (argc > 3 && strcmp(argv[argc - 2], "keep") == 0) {
        file = argv[argc - 1];
        argc -= 2;
    }
    if (argc > 2 && strcmp(argv[argc - 1], "damaged") == 0) {
        damaged = 1;
        argc--;
    }
    if (argc > 2 && strcmp(argv[argc - 1], "pieces") == 0) {
        most_moved = PIECE;
        argc--;
    }
    if (argc == 2 && strcmp(argv[1], "random") == 0) {
        srand((unsigned)getpid() ^ (unsigned)milliseconds());
        place = (unsigned)rand() % (MOST_RANDOM + 1);
        return 1;
    }
    if (argc != 2 && argc != 3)
        return 0;
    number = strtoul(argv[1], &end, 10);
    if (end == argv[1] || *end != 0 || number > MOST_PLACE)
        return 0;
    place = (unsigned)number;
    if (argc == 2)
        return 1;
    while (place_kind < RECORD_COMMIT && strcmp(argv[2], kinds[place_kind]) != 0)
        place_kind++;
    place_signal = place_kind == 0 ? SIGSTOP : SIGKILL;
    return strcmp(argv[2], kinds[place_kind]) == 0;
}

/* ---- The processes. ---- */

static void make_sockets(int type, int *one, int *other)
{
    int ends[2];

    if (socketpair(AF_UNIX, type, 0, ends) != 0)
        die("socketpair");
    *one = ends[0];
    *other = ends[1];
}

static pid_t start_process(void)
{
    pid_t process = fork();

    if (process < 0)
        die("fork");
    return process;
}

static int end_of(pid_t process)
{
    int status;

    if (waitpid(process, &status, 0) != process)
        die("waitpid");
    return status;
}

/* The next packet of a port must be the guest's. Returns 0 when there is none any more. */
static int receive_packet(int cable, unsigned port)
{
    uint8_t packet[MOST_PACKET_BYTES];
    ssize_t length = recv(cable, packet, sizeof packet, 0);

    if (length < 0)
        die("recv");
    if (length == 0)
        return 0;
    shared->packets[port]++;
    if (is_next_packet(&shared->packet_steps[port], port, packet, (size_t)length))
        return 1;
    printf("packet %u that left by port %u is not the guest's\n", shared->packets[port], port);
    exit(1);
}

/* The far side of the cables. Ends when the primary is gone. */
static void run_network(const int cables[PORTS])
{
    struct pollfd fds[PORTS];
    unsigned left = PORTS;

    for (unsigned port = 0; port < PORTS; port++)
        fds[port] = (struct pollfd){cables[port], POLLIN, 0};
    while (left > 0) {
        if (poll(fds, PORTS, -1) < 0)
            die("poll");
        for (unsigned port = 0; port < PORTS; port++)
            if (fds[port].revents != 0 && !receive_packet(fds[port].fd, port)) {
                fds[port].fd = -1; /* poll(2) does not look at it any more */
                left--;
            }
    }
    exit(0);
}

static void close_cables(const struct primary *p)
{
    for (unsigned port = 0; port < PORTS; port++)
        close(p->cards[port].cable);
}

/* Each process closes the ends that it does not use: else none would see that another is gone. */
static void start_processes(struct primary *p, struct standby *s)
{
    int far[PORTS];

    shared = mmap(NULL, sizeof *shared, PROT_READ | PROT_WRITE, MAP_SHARED | MAP_ANONYMOUS, -1, 0);
    if (shared == MAP_FAILED)
        die("mmap");
    for (unsigned port = 0; port < PORTS; port++)
        make_sockets(SOCK_SEQPACKET, &p->cards[port].cable, &far[port]);
    network_process = start_process();
    if (network_process == 0) {
        close_cables(p);
        run_network(far);
    }
    for (unsigned port = 0; port < PORTS; port++)
        close(far[port]);
    make_sockets(SOCK_STREAM, &p->link.fd, &s->link.fd);
    p->link.most_moved = s->link.most_moved = most_moved;
    primary_process = start_process();
    if (primary_process == 0) {
        prctl(PR_SET_PDEATHSIG, SIGKILL); /* a stopped primary does not outlive the program */
        close(s->link.fd);
        run_primary(p);
        exit(0);
    }
    close_cables(p);
    close(p->link.fd);
}

/* ---- The loss of the primary. ---- */

void trial_checkpoint(uint64_t epoch, uint64_t steps)
{
    shared->steps_at[epoch % EPOCHS_KEPT] = steps;
}

static void count_test(struct tests *t)
{
    t->all++;
    t->now++;
    if (t->now > t->most)
        t->most = t->now;
}

void trial_acknowledge(uint64_t answer)
{
    count_test(&shared->ack_tests);
    if (answer_number(answer) == NUMBER_ACCEPTED)
        shared->ack_tests.now = 0;
}

void trial_test(void)
{
    count_test(&tests);
}

/* A box that loses its power takes what is on the link with it; one that stops does not. */
static void lose_primary(struct standby *s)
{
    if (kill(primary_process, place_signal) != 0)
        die("kill");
    lost = 1;
    if (place_signal == SIGKILL)
        drop(&s->link);
}

/* The kind that a record is counted as: a PAGE or a COMMIT of either width as the narrow one. */
static unsigned counted_as(unsigned kind)
{
    return record_is_page(kind) ? RECORD_PAGE : record_is_commit(kind) ? RECORD_COMMIT : kind;
}

/* Whether this is a PAGE or a COMMIT of the width that M does not call for. */
static int is_other_width(unsigned kind)
{
    if (GUEST_PAGES > MOST_NARROW_PAGES)
        return kind == RECORD_PAGE || kind == RECORD_COMMIT;
    return kind == RECORD_WIDE_PAGE || kind == RECORD_WIDE_COMMIT;
}

/* The guest's steps at a checkpoint: 0 at checkpoint 0. */
static uint64_t steps_at(uint64_t epoch)
{
    return shared->steps_at[epoch % EPOCHS_KEPT];
}

static void count_received_blocks(uint64_t epoch)
{
    blocks.received += blocks.now;
    if (blocks.now > blocks.most)
        blocks.most = blocks.now;
    blocks.now = 0;
    blocks.different += different_blocks(steps_at(epoch - 1), steps_at(epoch));
}

/* Makes a byte wrong for the first drill, and right again after it: only the drill can tell. */
static void damage(struct standby *s)
{
    if (damaged && s->state[STANDBY_RECEIVED] == DRILL_EPOCHS)
        s->memory[M * U - 1] ^= 1;
}

void trial_record(struct standby *s, unsigned kind)
{
    records[0]++;
    records[counted_as(kind)]++;
    if (is_other_width(kind))
        other_width++;
    tests.now = 0;
    if (kind == RECORD_BLOCK)
        blocks.now++;
    if (record_is_commit(kind)) {
        count_received_blocks(s->state[STANDBY_RECEIVED]);
        damage(s);
    }
    if (!lost && records[place_kind] == place)
        lose_primary(s);
}

void trial_flush(uint32_t stored)
{
    blocks.stored += stored;
}

/* The guest waits for the whole sum here, and for the trial's sake alone. */
void trial_primary_sum(const struct primary *p, uint32_t epoch)
{
    shared->sum_at[epoch % EPOCHS_KEPT] = p->sum;
    shared->whole_at[epoch % EPOCHS_KEPT] =
        accepted(primary_sum(LENT(p->state), LENT(p->memory)), "sum");
}

void trial_standby_sum(struct standby *s, uint32_t sum)
{
    uint32_t epoch = (uint32_t)s->state[STANDBY_RECEIVED];
    uint32_t kept = shared->sum_at[epoch % EPOCHS_KEPT];
    uint32_t whole = shared->whole_at[epoch % EPOCHS_KEPT];
    uint32_t guests = sum_after(steps_at(epoch));

    printf("drill: checkpoint %u: sum %u at the primary, %u at the standby: %s\n", epoch, kept, sum,
           kept == sum ? "equal" : "different");
    if (whole != kept || guests != kept)
        printf("the primary's whole memory has the sum %u, the guest's %u\n", whole, guests);
    drills.all++;
    drills.different += sum != kept || whole != kept || guests != kept;
    damage(s);
}

void shut_off_primary(void)
{
    kill(primary_process, SIGKILL);
    if (!WIFSIGNALED(end_of(primary_process)) || !lost) {
        printf("the primary was lost after %u records, before its place\n", records[0]);
        exit(1);
    }
}

/* ---- The comparison. ---- */

/* Whether what the standby has now is this checkpoint, the last that it received. */
static int has_checkpoint(const struct primary *p, const struct standby *s, uint32_t epoch)
{
    uint64_t steps = steps_at(epoch);
    uint64_t choice = pair_disk_choice(LENT(p->disk), LENT(s->disk), LENT(s->area));
    int good = images_equal(steps, s->memory, s->disk);

    good = processor_equal(steps, s->processor) && good;
    if (epoch != records[RECORD_COMMIT] || accepted(choice, "choice") != CHOICE_STANDBY) {
        printf("checkpoint %u is not the last received, or its disk not the valid one\n", epoch);
        good = 0;
    }
    for (unsigned port = 0; port < PORTS; port++)
        if (shared->packet_steps[port] > steps) {
            printf("a packet left by port %u that was sent after checkpoint %u\n", port, epoch);
            good = 0;
        }
    return good;
}

/* Whether there were at most three tests of each record, the one under way included. */
static int few_tests(const char *what, const struct tests *t)
{
    if (t->most <= MOST_TESTS)
        return 1;
    printf("%u tests of one %s: some before the missing bytes had come\n", t->most, what);
    return 0;
}

/* Whether every PAGE and COMMIT was of the width that M calls for. */
static int right_width(void)
{
    if (other_width == 0)
        return 1;
    printf("%u records are of the width that %d pages do not call for\n", other_width, M);
    return 0;
}

/*
 * Whether each different block of a received epoch was stored once for it; and whether some epoch
 * had more BLOCKs than B, so that a slot was reused: the first has them in the guest's first run.
 */
static int slots_reused(void)
{
    if (blocks.stored != blocks.different) {
        printf("%u blocks stored, and not %u\n", blocks.stored, blocks.different);
        return 0;
    }
    if (records[RECORD_COMMIT] > 0 && blocks.most <= B) {
        printf("no received checkpoint has more than %d blocks\n", B);
        return 0;
    }
    return 1;
}

/* Whether all drills were made that the received checkpoints call for, and all sums are equal. */
static int drills_equal(void)
{
    if (drills.all == records[RECORD_COMMIT] / DRILL_EPOCHS && drills.different == 0)
        return 1;
    printf("%u drills, and %u of them found a difference\n", drills.all, drills.different);
    return 0;
}

/* Whether the checkpoint taken over is saved, or is not to be. */
static int saved(const struct standby *s, uint32_t epoch)
{
    size_t length;

    if (file == NULL)
        return 1;
    length = save_checkpoint(&s->kept, file);
    if (length == 0)
        printf("there is no checkpoint to keep\n");
    else
        printf("kept checkpoint %u: %zu bytes as it came, %zu in normal form\n", epoch,
               s->kept.received.length, length);
    return length > 0;
}

/* The guest goes on from the processor state taken over; nothing holds its packets any more. */
static uint64_t run_guest_at_standby(struct standby *s)
{
    uint64_t n = steps_of(s->processor), end = n + STEPS_AFTER;
    struct step step;

    for (; n < end; n++) {
        make_step(n, &step);
        if (step.action == MEMORY_WRITE)
            accepted(standby_memory_write(LENT(s->state), s->pending, s->processor,
                                          LENT(s->memory), step.unit, step.offset, step.bytes,
                                          step.length), "memory write");
        if (step.action == DISK_WRITE)
            accepted(standby_disk_write(LENT(s->state), s->pending, s->processor, LENT(s->disk),
                                        step.unit, step.bytes, step.length), "disk write");
    }
    return end;
}

int main(int argc, char **argv)
{
    static struct primary primary;
    static struct standby standby;
    uint32_t epoch;

    if (!read_place(argc, argv)) {
        fprintf(stderr, "usage: daemon N [page | block | state | commit | stop] [pieces] "
                        "[damaged] [keep FILE], daemon random [pieces] [damaged] [keep FILE]\n");
        return 2;
    }
    start_pair(&primary, &standby);
    start_processes(&primary, &standby);
    if (place == 0)
        lose_primary(&standby);
    epoch = run_standby(&standby);
    printf("%u records read in %u tests: %u blocks, %u pages, %u states, %u commits\n",
           records[0], tests.all, records[RECORD_BLOCK], records[RECORD_PAGE],
           records[RECORD_STATE], records[RECORD_COMMIT]);
    printf("received checkpoints have %u blocks, up to %u in one; %u blocks stored\n",
           blocks.received, blocks.most, blocks.stored);
    if (end_of(network_process) != 0 || !has_checkpoint(&primary, &standby, epoch) ||
        !few_tests("record", &tests) || !few_tests("ACK", &shared->ack_tests) || !right_width() ||
        !slots_reused() || !drills_equal() || !saved(&standby, epoch) ||
        !images_equal(run_guest_at_standby(&standby), standby.memory, standby.disk))
        return 1;
    printf("took over checkpoint %u: memory, disk and processor state equal; "
           "packets that left before it, by port:", epoch);
    for (unsigned port = 0; port < PORTS; port++)
        printf(" %u", shared->packets[port]);
    printf("\n");
    return 0;
}
