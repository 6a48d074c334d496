/* Refuses one allocation of a program. It is loaded before the C library, so that malloc, realloc, pthread_create, write
 * and _exit are these: a program with threads ends by _exit, which calls no destructor. The environment says what it does:
 *
 *   REFUSE=N         refuses the N-th allocation, from 1
 *   ALL_AFTER=1      and each one after it
 *   IN_THREAD=K      counts and refuses those of the K-th thread that was started alone; 0 is the first thread of all
 *   REFUSE_THREAD=N  starts no N-th thread, from 1
 *   LINGER=N         each thread that was started stays so many microseconds when it has done its work
 *   COUNT=FILE       writes how many allocations and how many threads were asked for
 *   SECONDS=N        ends a program that takes longer
 *
 * A program that writes to its standard output or error while a thread runs that it has started is ended with status 3:
 * what it says then it says too early. */
#define _GNU_SOURCE
#include <dlfcn.h>
#include <errno.h>
#include <pthread.h>
#include <stdio.h>
#include <stdlib.h>
#include <string.h>
#include <unistd.h>

enum { THREADS = 1 << 12 };

static unsigned long asked, refused, threads, refused_thread, running, linger;
static long counted_thread = -1;
static int all_after, begun;
static _Thread_local long this_thread __attribute__((tls_model("initial-exec")));

static struct {
    void *(*run)(void *);
    void *given;
} started[THREADS];

static unsigned long number_in(const char *name) {
    const char *word = getenv(name);
    return word ? strtoul(word, NULL, 10) : 0;
}

__attribute__((constructor)) static void begin(void) {
    refused = number_in("REFUSE");
    refused_thread = number_in("REFUSE_THREAD");
    linger = number_in("LINGER");
    all_after = getenv("ALL_AFTER") != NULL;
    if (getenv("IN_THREAD")) counted_thread = (long)number_in("IN_THREAD");
    alarm((unsigned)number_in("SECONDS"));
    asked = 0;
    begun = 1;
}

static int is_refused(void) {
    if (!begun || (counted_thread >= 0 && this_thread != counted_thread)) return 0;
    unsigned long number = __atomic_add_fetch(&asked, 1, __ATOMIC_RELAXED);
    return refused && (number == refused || (all_after && number > refused));
}

void *malloc(size_t size) {
    static void *(*real)(size_t);
    if (!real) real = dlsym(RTLD_NEXT, "malloc");
    return is_refused() ? NULL : real(size);
}

void *realloc(void *old, size_t size) {
    static void *(*real)(void *, size_t);
    if (!real) real = dlsym(RTLD_NEXT, "realloc");
    return is_refused() ? NULL : real(old, size);
}

static void *run(void *place) {
    this_thread = (long)(size_t)place;
    void *result = started[this_thread].run(started[this_thread].given);
    if (linger) usleep((useconds_t)linger);
    __atomic_sub_fetch(&running, 1, __ATOMIC_SEQ_CST);
    return result;
}

int pthread_create(pthread_t *thread, const pthread_attr_t *how, void *(*work)(void *), void *given) {
    static int (*real)(pthread_t *, const pthread_attr_t *, void *(*)(void *), void *);
    if (!real) real = dlsym(RTLD_NEXT, "pthread_create");
    unsigned long number = __atomic_add_fetch(&threads, 1, __ATOMIC_SEQ_CST);
    if (number == refused_thread || number >= THREADS) return EAGAIN;
    started[number].run = work;
    started[number].given = given;
    __atomic_add_fetch(&running, 1, __ATOMIC_SEQ_CST);
    int answer = real(thread, how, run, (void *)(size_t)number);
    if (answer) __atomic_sub_fetch(&running, 1, __ATOMIC_SEQ_CST);
    return answer;
}

__attribute__((destructor)) static void end(void) {
    const char *name = getenv("COUNT");
    if (!begun) return;
    begun = 0;
    FILE *file = name ? fopen(name, "w") : NULL;
    if (!file) return;
    fprintf(file, "%lu %lu\n", asked, threads);
    fclose(file);
}

void _exit(int status) {
    void (*real)(int) = dlsym(RTLD_NEXT, "_exit");
    end();
    real(status);
    __builtin_unreachable();
}

ssize_t write(int file, const void *bytes, size_t size) {
    static ssize_t (*real)(int, const void *, size_t);
    static const char early[] = "written while a thread runs\n";
    if (!real) real = dlsym(RTLD_NEXT, "write");
    if ((file == 1 || file == 2) && __atomic_load_n(&running, __ATOMIC_SEQ_CST)) {
        if (real(2, early, strlen(early)) < 0) abort();
        _exit(3);
    }
    return real(file, bytes, size);
}
