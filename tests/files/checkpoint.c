/*
 * Writes one checkpoint to a file, as it comes out of a primary.
 *
 *     checkpoint FILE WRITE..
 *
 * A WRITE is bN=TEXT, which writes block N, or pN=TEXT, which writes page N: the bytes of the text,
 * the others of a block 0. They are made in this order at a pair of zeros, then the checkpoint. With
 * cT=TEXT the processor state is that text. A WRITE that the primary refuses ends the program.
 */

#include <stdio.h>
#include <stdlib.h>
#include <string.h>

#include "standby_pair.h"

#ifndef PAGES
#define PAGES 4
#endif

enum { U = 64, M = PAGES, D = 8, B = 3, S = 3, Q = 0, L = 2 * LEAST_STREAM(64, PAGES, 3), T = 1 };

#define LENT(array) (array), sizeof(array) / sizeof((array)[0])

static uint64_t p[PRIMARY_WORDS], s[STANDBY_WORDS], dirty[MARK_WORDS(M)], marks[MARK_WORDS(M)];
static uint8_t memory[M * U], disk[D * U], held[1], stream[L], standby_memory[M * U];
static uint8_t standby_disk[D * U], staged_pages[M * U], staged_blocks[S * U], area[AREA_BYTES];
static uint8_t pending[PROCESSOR_BYTES], processor[PROCESSOR_BYTES], bytes[L];

static uint32_t accepted(const char *call, uint64_t answer)
{
    if (answer_number(answer) != NUMBER_ACCEPTED) {
        fprintf(stderr, "checkpoint: %s: refused with %u\n", call, answer_number(answer));
        exit(2);
    }
    return answer_value(answer);
}

static void start(void)
{
    static const uint64_t settings[] = {U, M, D, B, S, Q, L, T};

    accepted("start", pair_start(LENT(settings), processor, LENT(memory), LENT(disk), LENT(dirty),
             held, Q, LENT(stream), LENT(standby_memory), LENT(standby_disk), LENT(staged_pages),
             LENT(marks), LENT(staged_blocks), LENT(area), LENT(p), LENT(s), pending, processor));
}

/* One write of the guest; what follows the letter is N=TEXT. */
static void write_one(const char *argument)
{
    uint8_t block[U] = {0};
    char *text;
    size_t unit = strtoul(argument + 1, &text, 10), length = strlen(text + 1);

    memcpy(block, text + 1, length < U ? length : U);
    if (argument[0] == 'c')
        memcpy(processor, block, U);
    else if (argument[0] == 'b')
        accepted(argument, primary_disk_write(LENT(p), LENT(disk), LENT(stream), unit, LENT(block)));
    else
        accepted(argument, primary_memory_write(LENT(p), LENT(memory), LENT(dirty), unit, 0, block,
                                                length));
}

int main(int argc, char **argv)
{
    FILE *file = argc > 1 ? fopen(argv[1], "wb") : NULL;
    uint32_t length;

    if (file == NULL)
        return 2;
    start();
    memset(processor, 0, sizeof processor);
    for (int i = 2; i < argc; i++)
        write_one(argv[i]);
    accepted("checkpoint", primary_checkpoint(LENT(p), LENT(memory), LENT(dirty), LENT(stream),
                                              processor));
    length = accepted("drain", primary_drain(LENT(p), LENT(stream), L, LENT(bytes)));
    return fwrite(bytes, 1, length, file) != length || fclose(file) != 0;
}
