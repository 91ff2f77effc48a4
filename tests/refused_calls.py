"""A program whose calls of the C library fail: `Refusing` runs it with one allocation refused, one read or write failing, or each of them
short, or with a thread that sleeps within an allocation. The calls are replaced by a small library that is compiled here and loaded before
the C library."""
import mmap
import os
import struct
import subprocess
import tempfile

SOURCE = r"""
#define _GNU_SOURCE
#include <dlfcn.h>
#include <errno.h>
#include <fcntl.h>
#include <pthread.h>
#include <stdlib.h>
#include <sys/mman.h>
#include <sys/types.h>
#include <time.h>
#include <unistd.h>

/* How many allocations, reads and writes there were: shared with the script. */
static unsigned long spare[3], *calls = spare;
static unsigned long refused[64], refused_count, refused_from, read_fails_at, write_fails_at, at_most;
/* A thread's number from 1 on, in the order in which they are made, and the allocations that it has made. */
static unsigned long threads, sleeper, sleeps_at, sleeps_for, has_slept;
static __thread unsigned long thread, allocations;
static int (*next_create)(pthread_t *, const pthread_attr_t *, void *(*)(void *), void *);
static void *(*next_malloc)(size_t);
static void *(*next_realloc)(void *, size_t);
static ssize_t (*next_read)(int, void *, size_t);
static ssize_t (*next_write)(int, const void *, size_t);
static ssize_t (*next_recv)(int, void *, size_t, int);
static ssize_t (*next_send)(int, const void *, size_t, int);
static int is_ready;

static unsigned long number(const char *name) {
    const char *text = getenv(name);
    return text ? strtoul(text, NULL, 10) : 0;
}

static void find_refused(void) {
    char *text = getenv("REFUSED");
    while (text && *text && refused_count < 64) {
        refused[refused_count++] = strtoul(text, &text, 10);
        if (*text == ',') text++;
    }
}

static void find_calls(void) {
    next_create = dlsym(RTLD_NEXT, "pthread_create");
    next_malloc = dlsym(RTLD_NEXT, "malloc");
    next_realloc = dlsym(RTLD_NEXT, "realloc");
    next_read = dlsym(RTLD_NEXT, "read");
    next_write = dlsym(RTLD_NEXT, "write");
    next_recv = dlsym(RTLD_NEXT, "recv");
    next_send = dlsym(RTLD_NEXT, "send");
}

__attribute__((constructor)) static void begin(void) {
    find_calls();
    int file = open(getenv("REFUSED_COUNTS"), O_RDWR);
    if (file >= 0) calls = mmap(NULL, 4096, PROT_READ | PROT_WRITE, MAP_SHARED, file, 0);
    if (file < 0 || calls == MAP_FAILED) _exit(111);
    find_refused();
    refused_from = number("REFUSED_FROM");
    read_fails_at = number("READ_FAILS_AT"), write_fails_at = number("WRITE_FAILS_AT"), at_most = number("AT_MOST");
    sleeper = number("SLEEPER"), sleeps_at = number("SLEEPS_AT"), sleeps_for = number("SLEEPS_FOR");
    is_ready = 1;
}

static int is_refused(void) {
    if (!is_ready) return 0;
    unsigned long call = __sync_add_and_fetch(&calls[0], 1);
    int is_one = refused_from != 0 && call >= refused_from;
    for (unsigned long i = 0; i < refused_count; i++) is_one |= refused[i] == call;
    if (is_one) errno = ENOMEM;
    return is_one;
}

static int fails(int kind, unsigned long at) {
    if (!is_ready || __sync_add_and_fetch(&calls[kind], 1) != at) return 0;
    errno = EIO;
    return 1;
}

struct start { void *(*body)(void *); void *argument; unsigned long number; };

static void *begin_thread(void *given) {
    struct start start = *(struct start *)given;
    free(given);
    thread = start.number;
    return start.body(start.argument);
}

int pthread_create(pthread_t *made, const pthread_attr_t *how, void *(*body)(void *), void *argument) {
    struct start *start = next_malloc(sizeof *start);
    if (!start) return EAGAIN;
    *start = (struct start){body, argument, __sync_add_and_fetch(&threads, 1)};
    return next_create(made, how, begin_thread, start);
}

static void sleep_if_due(void) {
    if (thread == 0 || (sleeper != 0 && thread != sleeper) || ++allocations != sleeps_at) return;
    if (__sync_lock_test_and_set(&has_slept, 1)) return;
    struct timespec left = {sleeps_for, 0};
    while (nanosleep(&left, &left)) {}
}

static size_t some(size_t count) { return at_most && count > at_most ? at_most : count; }

void *malloc(size_t count) {
    if (!next_malloc) find_calls();
    sleep_if_due();
    return is_refused() ? NULL : next_malloc(count);
}

void *realloc(void *old, size_t count) {
    if (!next_realloc) find_calls();
    return is_refused() ? NULL : next_realloc(old, count);
}

ssize_t read(int file, void *to, size_t count) {
    return fails(1, read_fails_at) ? -1 : next_read(file, to, some(count));
}

ssize_t recv(int file, void *to, size_t count, int flags) {
    return fails(1, read_fails_at) ? -1 : next_recv(file, to, some(count), flags);
}

ssize_t write(int file, const void *from, size_t count) {
    return fails(2, write_fails_at) ? -1 : next_write(file, from, some(count));
}

ssize_t send(int file, const void *from, size_t count, int flags) {
    return fails(2, write_fails_at) ? -1 : next_send(file, from, some(count), flags);
}
"""


class Refusing:
    """The compiled library, in a folder of its own."""

    def __init__(self):
        self.room = tempfile.TemporaryDirectory(prefix="refused-")
        self.library, self.counts = os.path.join(self.room.name, "refused.so"), os.path.join(self.room.name, "counts")
        subprocess.run(["cc", "-shared", "-fPIC", "-O1", "-w", "-o", self.library, "-x", "c", "-", "-ldl"], input=SOURCE.encode(), check=True)

    def environment(self, counts, **limits):
        return {**os.environ, "LD_PRELOAD": self.library, "REFUSED_COUNTS": counts, **{name: str(value) for name, value in limits.items()}}

    def run(self, words, data, counts=None, **limits):
        """What a run answers and how many allocations, reads and writes it made. Limits are REFUSED (up to 64 allocations that are refused,
        separated by commas), REFUSED_FROM (that one is, and all later ones), READ_FAILS_AT, WRITE_FAILS_AT, AT_MOST (the bytes of a read
        or a write), and SLEEPER (the thread that was made as that one, from 1 on; without it the first that comes so far), which at its
        allocation SLEEPS_AT sleeps for SLEEPS_FOR seconds."""
        counts = counts or self.counts
        # Files and no pipes: of a pipe nobody knows how much a read takes, and a million short writes to one would wake its reader each time.
        with open(counts, "w+b") as file, tempfile.TemporaryFile() as given, tempfile.TemporaryFile() as printed:
            file.truncate(4096)
            given.write(data)
            given.seek(0)
            done = subprocess.run(words, stdin=given, stdout=printed, stderr=subprocess.PIPE, timeout=120,
                                  env=self.environment(counts, **limits))
            printed.seek(0)
            done.stdout = printed.read()
            with mmap.mmap(file.fileno(), 24, access=mmap.ACCESS_READ) as shared:
                return done, struct.unpack("QQQ", shared)
