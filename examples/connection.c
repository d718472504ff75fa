#define _POSIX_C_SOURCE 200809L

#include "connection.h"

#include <errno.h>
#include <poll.h>
#include <stdio.h>
#include <stdlib.h>
#include <string.h>
#include <sys/socket.h>
#include <time.h>
#include <unistd.h>

void die(const char *what)
{
    fprintf(stderr, "daemon: %s: %s\n", what, strerror(errno));
    exit(2);
}

/* After a failed send or recv: whether it is only to be tried again later. */
static int try_later(void)
{
    return errno == EAGAIN || errno == EWOULDBLOCK || errno == EINTR;
}

int64_t milliseconds(void)
{
    struct timespec t;

    if (clock_gettime(CLOCK_MONOTONIC, &t) != 0)
        die("clock_gettime");
    return (int64_t)t.tv_sec * 1000 + t.tv_nsec / 1000000;
}

int is_due(int64_t *last, int64_t interval)
{
    int64_t now = milliseconds();

    if (now < *last + interval)
        return 0;
    *last = now;
    return 1;
}

int has_record(const struct connection *c)
{
    return c->in_length > 0 && c->missing == 0;
}

void wait_until(int64_t due, struct connection *c, const int *others, size_t count)
{
    int events = (has_record(c) ? 0 : POLLIN) | (c->out_length > 0 ? POLLOUT : 0);
    struct pollfd fds[1 + count];
    int64_t now = milliseconds();

    fds[0] = (struct pollfd){c->fd, (short)events, 0};
    for (size_t i = 0; i < count; i++)
        fds[1 + i] = (struct pollfd){others[i], POLLOUT, 0};
    if (poll(fds, 1 + count, due > now ? (int)(due - now) : 0) < 0 && errno != EINTR)
        die("poll");
    c->has_bytes = (fds[0].revents & ~POLLOUT) != 0; /* or their end, or an error */
}

/* So many of these bytes as may be moved at a time. */
static size_t at_a_time(const struct connection *c, size_t length)
{
    return c->most_moved > 0 && length > c->most_moved ? c->most_moved : length;
}

int receive(struct connection *c)
{
    size_t length = at_a_time(c, c->missing);
    ssize_t n;

    if (c->fd >= 0 && length > 0 && c->has_bytes) {
        n = recv(c->fd, c->in + c->in_length, length, MSG_DONTWAIT);
        c->has_bytes = n == (ssize_t)length;
        if (n > 0) {
            c->in_length += (size_t)n;
            c->missing -= (size_t)n;
        } else if (n == 0 || !try_later()) {
            drop(c);
        }
    }
    return c->fd >= 0 && c->missing == 0;
}

void transmit(struct connection *c)
{
    size_t length = at_a_time(c, c->out_length);
    ssize_t n;

    if (c->fd < 0 || length == 0)
        return;
    n = send(c->fd, c->out, length, MSG_NOSIGNAL | MSG_DONTWAIT);
    if (n >= 0) {
        c->out_length -= (size_t)n;
        memmove(c->out, c->out + n, c->out_length);
    } else if (!try_later()) {
        drop(c);
    }
}

void drop(struct connection *c)
{
    if (c->fd >= 0)
        close(c->fd);
    c->fd = -1;
    c->in_length = c->out_length = c->missing = 0;
}

int send_packet(int fd, const uint8_t *packet, size_t length)
{
    if (send(fd, packet, length, MSG_NOSIGNAL | MSG_DONTWAIT) >= 0)
        return 1;
    if (!try_later())
        die("the network");
    return 0;
}
