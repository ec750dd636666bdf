/* Times items that a service answers, on a socket that is connected already.
 *
 * usage: serve_figures SOCKET messages|frames COUNT FLIGHT < ITEMS
 *
 * SOCKET is a descriptor that was handed down, behind the handshake. ITEMS are what is sent, in
 * turn, over and over: each is its length as four bytes of this machine, and its bytes. COUNT items
 * are sent, of which FLIGHT are under way at most. Each has to be answered by a return, or by a
 * frame without an error; signals between are passed over.
 *
 * It prints the seconds that all took, and the median of one in microseconds: with one under way
 * that of the time from an item to its answer, else that of all divided by their number.
 */
#include <errno.h>
#include <stdint.h>
#include <stdio.h>
#include <stdlib.h>
#include <string.h>
#include <sys/socket.h>
#include <time.h>
#include <unistd.h>

enum { LONGEST = 1 << 20, ROOM = 1 << 22, RETURN = 2, SIGNAL = 4 };

static char items[ROOM], got[ROOM], batch[ROOM];
static size_t at[1024], length[1024], count_of_items;
static size_t held, begun;
static int descriptor, are_frames;

static void fail(const char *why) {
    fprintf(stderr, "serve_figures: %s\n", why);
    exit(1);
}

static double now(void) {
    struct timespec t;
    clock_gettime(CLOCK_MONOTONIC, &t);
    return t.tv_sec + t.tv_nsec / 1e9;
}

static void read_items(void) {
    size_t end = 0;
    for (ssize_t n; (n = read(0, items + end, sizeof items - end)) > 0;) end += (size_t)n;
    for (size_t place = 0; place + 4 <= end && count_of_items < 1024;) {
        uint32_t len;
        memcpy(&len, items + place, 4);
        at[count_of_items] = place + 4;
        length[count_of_items++] = len;
        place += 4 + (size_t)len;
    }
    if (!count_of_items) fail("no item");
}

static void send_all(const char *bytes, size_t len) {
    while (len) {
        ssize_t n = send(descriptor, bytes, len, MSG_NOSIGNAL);
        if (n < 0 && errno == EINTR) continue;
        if (n <= 0) fail("the connection was closed to writing");
        bytes += n;
        len -= (size_t)n;
    }
}

/* The length of what stands first of what came, or 0 where that isn't known yet. */
static size_t whole(void) {
    const unsigned char *head = (unsigned char *)got + begun;
    uint32_t word, fields;
    if (held - begun < 16) return 0;
    if (are_frames) {
        memcpy(&word, head, 4);
        return word;
    }
    memcpy(&word, head + 4, 4);
    memcpy(&fields, head + 12, 4);
    return 16 + ((size_t)fields + 7) / 8 * 8 + word;
}

/* Takes answers that came whole, and says how many. */
static size_t answers(void) {
    size_t found = 0;
    for (size_t len; (len = whole()) && held - begun >= len; begun += len) {
        if (are_frames) {
            int32_t error;
            memcpy(&error, got + begun + 4, 4);
            if (error) fail(strerror(-error));
            found++;
        } else if (got[begun + 1] == RETURN) {
            found++;
        } else if (got[begun + 1] != SIGNAL) {
            fail("a call was refused");
        }
    }
    return found;
}

static size_t take_answers(void) {
    for (;;) {
        size_t found = answers();
        if (found) return found;
        if (begun) {
            memmove(got, got + begun, held - begun);
            held -= begun;
            begun = 0;
        }
        ssize_t n = recv(descriptor, got + held, sizeof got - held, 0);
        if (n < 0 && errno == EINTR) continue;
        if (n <= 0) fail("the connection was closed");
        held += (size_t)n;
    }
}

static size_t next_item;

static void send_items(size_t number) {
    size_t end = 0;
    while (number--) {
        size_t item = next_item++ % count_of_items;
        if (end && end + length[item] > sizeof batch) {
            send_all(batch, end);
            end = 0;
        }
        memcpy(batch + end, items + at[item], length[item]);
        end += length[item];
    }
    send_all(batch, end);
}

static int order(const void *a, const void *b) {
    double x = *(const double *)a, y = *(const double *)b;
    return (x > y) - (x < y);
}

int main(int argc, char **argv) {
    if (argc != 5) fail("four words are wanted");
    descriptor = atoi(argv[1]);
    are_frames = !strcmp(argv[2], "frames");
    size_t count = strtoul(argv[3], NULL, 10), flight = strtoul(argv[4], NULL, 10);
    double *times = calloc(count + 1, sizeof *times);
    if (!times || !count) fail("no count");
    read_items();
    double start = now();
    if (flight == 0) {
        for (size_t n = 0; n < count; n++) {
            double sent = now();
            send_items(count_of_items);
            size_t done = take_answers();
            times[n] = now() - sent;
            while (done < count_of_items) done += take_answers();
        }
    } else if (flight == 1) {
        for (size_t n = 0; n < count; n++) {
            double sent = now();
            send_items(1);
            take_answers();
            times[n] = now() - sent;
        }
    } else {
        size_t sent = flight < count ? flight : count;
        send_items(sent);
        for (size_t done = 0; done < count;) {
            size_t found = take_answers();
            done += found;
            size_t more = sent + found <= count ? found : count - sent;
            if (more) send_items(more);
            sent += more;
        }
    }
    double all = now() - start;
    qsort(times, count, sizeof *times, order);
    printf("%.6f %.3f\n", all, (flight <= 1 ? times[count / 2] : all / (double)count) * 1e6);
    return 0;
}
