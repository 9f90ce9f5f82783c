/* Loaded into a program (LD_PRELOAD) by disturb.py: runs it again and again, each time in a process of its own, and refuses
   requests for memory, fails reads and writes, or starts no thread there as it is told.

   The program is loaded once, up to its beginning (or up to its first request for DISTURB_MARK bytes). There it waits for
   orders, and for each forks: the child is one run, from DISTURB_ROOM/in to DISTURB_ROOM/out and DISTURB_ROOM/err. */
#define _GNU_SOURCE
#include <dlfcn.h>
#include <errno.h>
#include <fcntl.h>
#include <pthread.h>
#include <stdint.h>
#include <stdio.h>
#include <stdlib.h>
#include <string.h>
#include <sys/mman.h>
#include <sys/time.h>
#include <sys/wait.h>
#include <unistd.h>

enum { MEMORY, READS, WRITES, SAYINGS, THREADS, KINDS }; /* writes to standard output, and those to standard error */
enum { CALM = 0, SHORT = -1, NOTHING = -2 };     /* beside numbers of errno: one byte alone, and an answer of 0 bytes */
enum { MARKS = 4 };

struct order { int64_t kind, how, then, first, last, seconds; };
struct told { int64_t status, seen[KINDS], marks, at_mark[MARKS]; };

static void *(*real_malloc)(size_t), *(*real_calloc)(size_t, size_t), *(*real_realloc)(void *, size_t), *(*real_aligned)(size_t, size_t);
static ssize_t (*real_read)(int, void *, size_t), (*real_write)(int, const void *, size_t);
static int (*real_create)(pthread_t *, const pthread_attr_t *, void *(*)(void *), void *);
static struct order order;
static struct told *told;
static const char *room;
static int orders, replies, is_run;
static size_t mark;

static void find(void) {
    real_malloc = dlsym(RTLD_NEXT, "malloc");
    real_calloc = dlsym(RTLD_NEXT, "calloc");
    real_realloc = dlsym(RTLD_NEXT, "realloc");
    real_aligned = dlsym(RTLD_NEXT, "aligned_alloc");
    real_read = dlsym(RTLD_NEXT, "read");
    real_write = dlsym(RTLD_NEXT, "write");
    real_create = dlsym(RTLD_NEXT, "pthread_create");
}

static void redirect(int fd, const char *name, int flags) {
    char path[4096];
    snprintf(path, sizeof path, "%s/%s", room, name);
    int file = open(path, flags, 0600);
    if (file < 0 || dup2(file, fd) < 0) _exit(127);
    close(file);
}

static void serve(void) {
    told = mmap(NULL, sizeof *told, PROT_READ | PROT_WRITE, MAP_SHARED | MAP_ANONYMOUS, -1, 0);
    if (told == MAP_FAILED) _exit(126);
    while (real_read(orders, &order, sizeof order) == sizeof order) {
        memset(told, 0, sizeof *told);
        pid_t child = fork();
        if (child == 0) {
            close(orders);
            close(replies);
            redirect(0, "in", O_RDONLY);
            redirect(1, "out", O_WRONLY | O_CREAT | O_TRUNC);
            redirect(2, "err", O_WRONLY | O_CREAT | O_TRUNC);
            /* so many seconds of a processor, and a hundred times that of the clock, where it waits for something */
            struct itimerval most = {.it_value = {.tv_sec = order.seconds}};
            setitimer(ITIMER_PROF, &most, NULL);
            alarm(100 * order.seconds);
            is_run = 1;
            return;
        }
        int status = 126 << 8;
        if (child > 0) waitpid(child, &status, 0);
        told->status = status;
        if (real_write(replies, told, sizeof *told) != sizeof *told) break;
    }
    _exit(0);
}

__attribute__((constructor)) static void begin(void) {
    const char *fds = getenv("DISTURB_FDS");
    room = getenv("DISTURB_ROOM");
    if (!fds || !room || sscanf(fds, "%d,%d", &orders, &replies) != 2) return;
    find();
    const char *bytes = getenv("DISTURB_MARK");
    mark = bytes ? strtoul(bytes, NULL, 10) : 0;
    if (!mark) serve();
}

/* How this call of its kind is to fail. */
static int disturbed(int kind) {
    int64_t n = __atomic_add_fetch(&told->seen[kind], 1, __ATOMIC_RELAXED);
    if (order.kind != kind || n < order.first || n > order.last) return CALM;
    return n == order.first ? order.how : order.then;
}

static int refused(size_t n) {
    if (mark && n == mark) {
        if (!is_run) serve();
        if (told->marks < MARKS) told->at_mark[told->marks++] = told->seen[MEMORY];
        return 0;
    }
    if (!is_run || !disturbed(MEMORY)) return 0;
    errno = ENOMEM;
    return 1;
}

void *malloc(size_t n) { if (!real_malloc) find(); return refused(n) ? NULL : real_malloc(n); }
void *calloc(size_t n, size_t m) { if (!real_calloc) return NULL; return refused(n * m) ? NULL : real_calloc(n, m); }
void *realloc(void *p, size_t n) { if (!real_realloc) find(); return refused(n) ? NULL : real_realloc(p, n); }
void *aligned_alloc(size_t a, size_t n) { if (!real_aligned) find(); return refused(n) ? NULL : real_aligned(a, n); }
int posix_memalign(void **out, size_t a, size_t n) {
    void *p = aligned_alloc(a, n);
    if (!p) return ENOMEM;
    *out = p;
    return 0;
}

ssize_t read(int fd, void *to, size_t n) {
    if (!real_read) find();
    int how = is_run && fd == 0 ? disturbed(READS) : CALM;
    if (how > 0) { errno = how; return -1; }
    return real_read(fd, to, how == SHORT && n > 1 ? 1 : n);
}

ssize_t write(int fd, const void *from, size_t n) {
    if (!real_write) find();
    int how = !is_run || fd < 1 || fd > 2 ? CALM : disturbed(fd == 1 ? WRITES : SAYINGS);
    if (how > 0) { errno = how; return -1; }
    if (how == NOTHING) return 0;
    return real_write(fd, from, how == SHORT && n > 1 ? 1 : n);
}

int pthread_create(pthread_t *made, const pthread_attr_t *how, void *(*does)(void *), void *with) {
    if (!real_create) find();
    if (is_run && disturbed(THREADS)) return EAGAIN;
    return real_create(made, how, does, with);
}
