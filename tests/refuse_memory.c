/* Loaded before a program (LD_PRELOAD), runs it again and again, in a child of its own each time, and refuses memory: of the calls
   that ask for it, numbered from 1, once each alone, and once each with all behind it. A thread that is to start counts as a call,
   since it needs a stack. Each outcome that is new is kept as a file of the folder REFUSE_INTO: its name is the status that the
   run ended with (`signal-N` where a signal ended it) and a number, its bytes are what the run wrote. REFUSE_STEP tries every so
   many-th call alone. At the end it prints the number of calls, of runs and of outcomes. */
#define _GNU_SOURCE
#include <dlfcn.h>
#include <errno.h>
#include <pthread.h>
#include <stdatomic.h>
#include <stdio.h>
#include <stdlib.h>
#include <string.h>
#include <sys/mman.h>
#include <sys/stat.h>
#include <sys/wait.h>
#include <unistd.h>

extern void *__libc_malloc(size_t size);
extern void *__libc_calloc(size_t count, size_t size);
extern void *__libc_realloc(void *old, size_t size);

typedef unsigned long long number;
typedef int start_thread(pthread_t *, const pthread_attr_t *, void *(*)(void *), void *);

enum { MOST_OUTCOMES = 10000, SECONDS = 60 };

static _Atomic number *calls;
static number first, last;
static start_thread *real_start;

static int refused(void) {
    if (!last) return 0;
    number call = atomic_fetch_add(calls, 1) + 1;
    return first <= call && call <= last;
}

void *malloc(size_t size) {
    if (!refused()) return __libc_malloc(size);
    errno = ENOMEM;
    return 0;
}

void *calloc(size_t count, size_t size) {
    if (!refused()) return __libc_calloc(count, size);
    errno = ENOMEM;
    return 0;
}

void *realloc(void *old, size_t size) {
    if (!refused()) return __libc_realloc(old, size);
    errno = ENOMEM;
    return 0;
}

int pthread_create(pthread_t *thread, const pthread_attr_t *how, void *(*body)(void *), void *with) {
    return refused() ? EAGAIN : real_start(thread, how, body, with);
}

static void give_up(const char *why) {
    perror(why);
    _exit(125);
}

/* An outcome that was kept. */
static struct { int status; size_t size; char *bytes; } kept[MOST_OUTCOMES];
static int outcomes;

static void keep(int status, int file, const char *folder) {
    struct stat about;
    if (fstat(file, &about)) give_up("fstat");
    size_t size = about.st_size;
    char *bytes = __libc_malloc(size + 1), path[4096];
    if (!bytes || pread(file, bytes, size, 0) != (ssize_t)size) give_up("pread");
    for (int i = 0; i < outcomes; i++)
        if (kept[i].status == status && kept[i].size == size && !memcmp(kept[i].bytes, bytes, size)) {
            free(bytes);
            return;
        }
    if (outcomes == MOST_OUTCOMES) give_up("too many outcomes");
    kept[outcomes].status = status;
    kept[outcomes].size = size;
    kept[outcomes].bytes = bytes;
    int signaled = WIFSIGNALED(status), code = signaled ? WTERMSIG(status) : WEXITSTATUS(status);
    snprintf(path, sizeof path, "%s/%s%d-%d", folder, signaled ? "signal-" : "", code, outcomes++);
    FILE *out = fopen(path, "w");
    if (!out || fwrite(bytes, 1, size, out) != size || fclose(out)) give_up(path);
}

/* One run: true in the child that is to do it, false behind it. */
static int in_child(number from, number to, const char *folder) {
    int file = memfd_create("written", 0), status;
    if (file < 0) give_up("memfd_create");
    atomic_store(calls, 0);
    pid_t child = fork();
    if (child < 0) give_up("fork");
    if (child == 0) {
        if (dup2(file, 1) < 0 || dup2(file, 2) < 0) _exit(125);
        close(file);
        alarm(SECONDS);
        first = from;
        last = to;
        return 1;
    }
    if (waitpid(child, &status, 0) != child) give_up("waitpid");
    keep(status, file, folder);
    close(file);
    return 0;
}

__attribute__((constructor)) static void try_all(void) {
    const char *folder = getenv("REFUSE_INTO"), *every = getenv("REFUSE_STEP");
    if (!folder) return;
    real_start = (start_thread *)dlsym(RTLD_NEXT, "pthread_create");
    calls = mmap(0, sizeof *calls, PROT_READ | PROT_WRITE, MAP_SHARED | MAP_ANONYMOUS, -1, 0);
    if (!real_start || calls == MAP_FAILED) give_up("refuse_memory");
    number most = 0, runs = 1, step = every ? strtoull(every, 0, 10) : 1, never = ~0ULL;
    if (in_child(never, never, folder)) return;
    for (number n = 1; n <= (most = *calls > most ? *calls : most); n += step ? step : 1) {
        if (in_child(n, n, folder)) return;
        most = *calls > most ? *calls : most;
        if (in_child(n, never - 1, folder)) return;
        runs += 2;
    }
    printf("%llu calls, %llu runs, %d outcomes\n", most, runs, outcomes);
    fflush(stdout);
    _exit(0);
}
