#include "guest.h"

#include <stdio.h>
#include <string.h>

/* Numbers that look random and are the same for the same start (splitmix64). */
static uint64_t next_random(uint64_t *state)
{
    uint64_t z = *state += 0x9e3779b97f4a7c15;

    z = (z ^ z >> 30) * 0xbf58476d1ce4e5b9;
    z = (z ^ z >> 27) * 0x94d049bb133111eb;
    return z ^ z >> 31;
}

static void random_bytes(uint64_t *state, uint8_t *bytes, size_t length)
{
    for (size_t i = 0; i < length; i++)
        bytes[i] = (uint8_t)next_random(state);
}

/* What a step does that does not write the header block. */
static enum action other_action(unsigned choice)
{
    if (HEADER_ONLY)
        return MEMORY_WRITE;
    return choice == 0 ? DISK_WRITE : choice <= 3 ? PACKET : MEMORY_WRITE;
}

void make_step(uint64_t n, struct step *s)
{
    static const size_t units[] = {[MEMORY_WRITE] = M, [DISK_WRITE] = D, [PACKET] = PORTS};
    uint64_t random = (n + 40) << 32; /* 40: so that another block is among the first steps */
    unsigned choice = next_random(&random) % 16;
    int is_header = n % HEADER_STEPS == 0;

    s->action = is_header ? DISK_WRITE : other_action(choice);
    s->unit = is_header ? HEADER_BLOCK : next_random(&random) % units[s->action];
    s->offset = s->action == MEMORY_WRITE ? next_random(&random) % U : 0;
    s->length = s->action == DISK_WRITE ? U : 1 + next_random(&random) % (U - s->offset);
    random_bytes(&random, s->bytes, s->length);
}

void processor_after(uint64_t n, uint8_t processor[PROCESSOR_BYTES])
{
    uint64_t random = ~n;

    random_bytes(&random, processor, PROCESSOR_BYTES);
    memcpy(processor, &n, sizeof n);
}

uint64_t steps_of(const uint8_t processor[PROCESSOR_BYTES])
{
    uint64_t n;

    memcpy(&n, processor, sizeof n);
    return n;
}

void images_after(uint64_t n, uint8_t memory[M * U], uint8_t disk[D * U])
{
    uint64_t random = 1;
    struct step s;

    random_bytes(&random, memory, M * U);
    random_bytes(&random, disk, D * U);
    for (uint64_t i = 0; i < n; i++) {
        make_step(i, &s);
        if (s.action == MEMORY_WRITE)
            memcpy(memory + s.unit * U + s.offset, s.bytes, s.length);
        if (s.action == DISK_WRITE)
            memcpy(disk + s.unit * U, s.bytes, s.length);
    }
}

/* Each byte * (its address + 1), added modulo 2^32. */
uint32_t sum_after(uint64_t n)
{
    static uint8_t memory[M * U], disk[D * U];
    uint32_t sum = 0;

    images_after(n, memory, disk);
    for (uint32_t address = 0; address < M * U; address++)
        sum += memory[address] * (address + 1);
    return sum;
}

static int equal(const char *what, const uint8_t *is, const uint8_t *wanted, size_t length)
{
    for (size_t i = 0; i < length; i++)
        if (is[i] != wanted[i]) {
            printf("%s: byte %zu is %u and not %u\n", what, i, is[i], wanted[i]);
            return 0;
        }
    return 1;
}

int images_equal(uint64_t n, const uint8_t memory[M * U], const uint8_t disk[D * U])
{
    static uint8_t wanted_memory[M * U], wanted_disk[D * U];
    int good;

    images_after(n, wanted_memory, wanted_disk);
    good = equal("memory", memory, wanted_memory, M * U);
    return equal("disk", disk, wanted_disk, D * U) && good;
}

int processor_equal(uint64_t n, const uint8_t processor[PROCESSOR_BYTES])
{
    uint8_t wanted[PROCESSOR_BYTES];

    processor_after(n, wanted);
    return equal("processor state", processor, wanted, PROCESSOR_BYTES);
}

unsigned different_blocks(uint64_t from, uint64_t to)
{
    int is_written[D] = {0};
    unsigned count = 0;
    struct step s;

    for (uint64_t i = from; i < to; i++) {
        make_step(i, &s);
        if (s.action == DISK_WRITE && !is_written[s.unit]) {
            is_written[s.unit] = 1;
            count++;
        }
    }
    return count;
}

int is_next_packet(uint64_t *steps, size_t port, const uint8_t *packet, size_t length)
{
    struct step s;

    do
        make_step((*steps)++, &s);
    while (s.action != PACKET || s.unit != port);
    return s.length == length && memcmp(s.bytes, packet, length) == 0;
}
