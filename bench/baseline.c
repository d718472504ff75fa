/* The baseline of the benchmarks: memcpy of the same bytes, and memmove where what is left moves to the front. */

#include <stddef.h>
#include <stdint.h>
#include <string.h>

/* n bytes from src to dst. */
void base_copy(uint8_t *dst, const uint8_t *src, size_t n)
{
    memcpy(dst, src, n);
}

/* Of m pages of u bytes every step-th, one behind the other with gap bytes before each. */
void base_gather(uint8_t *dst, const uint8_t *src, size_t u, size_t m, size_t step, size_t gap)
{
    for (size_t p = 0; p < m; p += step) {
        dst += gap;
        memcpy(dst, src + p * u, u);
        dst += u;
    }
}

/* Of m pages of u bytes every step-th, each to its place. */
void base_place(uint8_t *dst, const uint8_t *src, size_t u, size_t m, size_t step)
{
    for (size_t p = 0; p < m; p += step)
        memcpy(dst + p * u, src + p * u, u);
}

/* Of count records, each of gap bytes and u behind them, the last u, to their place. */
void base_scatter(uint8_t *dst, const uint8_t *src, size_t u, size_t count, size_t gap)
{
    for (size_t p = 0; p < count; p++)
        memcpy(dst + p * u, src + p * (u + gap) + gap, u);
}

/* The first n of total bytes to dst, the rest to the front. */
void base_move_out(uint8_t *dst, uint8_t *src, size_t n, size_t total)
{
    memcpy(dst, src, n);
    memmove(src, src + n, total - n);
}

/* size bytes behind the others, then the out bytes at a place out, and what is behind them closes up. */
void base_in_and_out(uint8_t *dst, uint8_t *held, const uint8_t *one, size_t size, size_t others, size_t at, size_t out)
{
    memcpy(held + others, one, size);
    memcpy(dst, held + at, out);
    memmove(held + at, held + at + out, others + size - at - out);
}
