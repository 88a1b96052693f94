/* Stands before the C library's calls of a program: counts them, and lets one fail, as it is told. bench/hostile.py builds it with gcc and
   starts programs over it, for bench/memory, bench/failing and bench/fuzz. For Linux on x86-64.

   A program that is started over it doesn't begin: it waits for orders on the descriptor that NETM_ORDERS names. At each order it
   forks, and the child begins as if it had just been started, with standard input and output from their beginning; the parent waits for
   its end, and answers how it ended, its peak of memory, its time of the processor, and how many calls of each kind it made. So a run
   costs a fork, and no start of a program. */
#define _GNU_SOURCE
#include <errno.h>
#include <fcntl.h>
#include <signal.h>
#include <stdarg.h>
#include <stddef.h>
#include <stdint.h>
#include <stdlib.h>
#include <sys/mman.h>
#include <sys/resource.h>
#include <sys/stat.h>
#include <sys/syscall.h>
#include <sys/time.h>
#include <sys/wait.h>
#include <unistd.h>

/* Kinds of calls. Those of standard input and output are counted apart from those of other files. */
enum kind { MEMORY, INPUT, OUTPUT, READ, WRITE, SYNC, OPEN, CUT, PLACE, KINDS };

/* What becomes of the call that the order names: it fails alone; it fails, and all of its kind behind it; it moves one byte; it moves one
   byte, and the next of its kind fails; the program is killed before it. */
enum how { NOTHING, ONCE, ON, SHORT, SHORT_ONCE, KILL };

struct order { int32_t kind, how, error, most; int64_t number; };
struct answer { int32_t status, peak; int64_t micros, calls[KINDS]; };

static struct order order;
static int64_t *calls;
static int serving;

extern void *__libc_malloc(size_t size);
extern void *__libc_calloc(size_t count, size_t size);
extern void *__libc_realloc(void *at, size_t size);

/* ---- Which calls fail */

/* Counts a call, and says whether it fails. */
static int fails(enum kind kind) {
    if (!serving)
        return 0;
    int64_t number = ++calls[kind];
    if (order.kind != (int)kind)
        return 0;
    if (order.how == KILL && number == order.number)
        kill(getpid(), SIGKILL);
    if ((order.how == ONCE && number == order.number) || (order.how == ON && number >= order.number)
        || (order.how == SHORT_ONCE && number == order.number + 1)) {
        errno = order.error;
        return 1;
    }
    return 0;
}

/* How many bytes the call that was counted last moves at most. */
static size_t most(enum kind kind, size_t count) {
    if (!serving)
        return count;
    if (order.most > 0 && (kind == INPUT || kind == OUTPUT) && count > (size_t)order.most)
        return order.most;
    int is_short = order.kind == (int)kind && (order.how == SHORT || order.how == SHORT_ONCE) && calls[kind] == order.number;
    return is_short && count > 1 ? 1 : count;
}

/* ---- The calls */

void *malloc(size_t size) { return fails(MEMORY) ? NULL : __libc_malloc(size); }
void *calloc(size_t count, size_t size) { return fails(MEMORY) ? NULL : __libc_calloc(count, size); }
void *realloc(void *at, size_t size) { return fails(MEMORY) ? NULL : __libc_realloc(at, size); }

ssize_t read(int file, void *into, size_t count) {
    enum kind kind = file == 0 ? INPUT : READ;
    return fails(kind) ? -1 : syscall(SYS_read, file, into, most(kind, count));
}

ssize_t write(int file, const void *from, size_t count) {
    enum kind kind = file == 1 ? OUTPUT : WRITE;
    return fails(kind) ? -1 : syscall(SYS_write, file, from, most(kind, count));
}

int fsync(int file) { return fails(SYNC) ? -1 : (int)syscall(SYS_fsync, file); }
int fdatasync(int file) { return fails(SYNC) ? -1 : (int)syscall(SYS_fdatasync, file); }

static int opened(int folder, const char *path, int flags, mode_t mode) {
    return fails(OPEN) ? -1 : (int)syscall(SYS_openat, folder, path, flags, mode);
}

static mode_t mode_in(int flags, va_list rest) { return flags & O_CREAT ? va_arg(rest, mode_t) : 0; }

#define OPENS(name) int name(const char *path, int flags, ...) { \
    va_list rest; va_start(rest, flags); mode_t mode = mode_in(flags, rest); va_end(rest); \
    return opened(AT_FDCWD, path, flags, mode); }
#define OPENS_AT(name) int name(int folder, const char *path, int flags, ...) { \
    va_list rest; va_start(rest, flags); mode_t mode = mode_in(flags, rest); va_end(rest); \
    return opened(folder, path, flags, mode); }
OPENS(open)
OPENS(open64)
OPENS_AT(openat)
OPENS_AT(openat64)

int ftruncate(int file, off_t length) { return fails(CUT) ? -1 : (int)syscall(SYS_ftruncate, file, length); }
int ftruncate64(int file, off_t length) { return ftruncate(file, length); }
off_t lseek(int file, off_t to, int from) { return fails(PLACE) ? -1 : syscall(SYS_lseek, file, to, from); }
off_t lseek64(int file, off_t to, int from) { return lseek(file, to, from); }
int fstat(int file, struct stat *into) { return fails(PLACE) ? -1 : (int)syscall(SYS_fstat, file, into); }
int fstat64(int file, struct stat64 *into) { return fstat(file, (struct stat *)into); }
int statx(int folder, const char *path, int flags, unsigned mask, struct statx *into) {
    return fails(PLACE) ? -1 : (int)syscall(SYS_statx, folder, path, flags, mask, into);
}

/* ---- Orders */

static void limit(int what, rlim_t to) {
    struct rlimit both = {to, to};
    setrlimit(what, &both);
}

/* The child: 10 seconds of the processor, 60 of the clock, 2 GB, and no core. */
static void begin(int orders) {
    struct itimerval minute = {{0, 0}, {60, 0}};
    close(orders);
    unsetenv("NETM_ORDERS");
    unsetenv("LD_PRELOAD");
    limit(RLIMIT_CORE, 0);
    limit(RLIMIT_CPU, 10);
    limit(RLIMIT_AS, (rlim_t)2 << 30);
    setitimer(ITIMER_REAL, &minute, NULL);
    serving = 1;
}

static void answer(int orders, pid_t child) {
    struct answer told = {0};
    struct rusage used;
    if (wait4(child, &told.status, 0, &used) != child)
        _exit(3);
    told.peak = (int32_t)used.ru_maxrss;
    told.micros = (used.ru_utime.tv_sec + used.ru_stime.tv_sec) * 1000000L + used.ru_utime.tv_usec + used.ru_stime.tv_usec;
    for (int kind = 0; kind < KINDS; kind++)
        told.calls[kind] = calls[kind];
    if (write(orders, &told, sizeof told) != sizeof told)
        _exit(3);
}

__attribute__((constructor)) static void serve(void) {
    const char *named = getenv("NETM_ORDERS");
    if (!named)
        return;
    int orders = atoi(named);
    calls = mmap(NULL, KINDS * sizeof *calls, PROT_READ | PROT_WRITE, MAP_SHARED | MAP_ANONYMOUS, -1, 0);
    while (read(orders, &order, sizeof order) == sizeof order) {
        for (int kind = 0; kind < KINDS; kind++)
            calls[kind] = 0;
        lseek(0, 0, SEEK_SET);
        lseek(1, 0, SEEK_SET);
        if (ftruncate(1, 0) != 0)
            _exit(3);
        pid_t child = fork();
        if (child == 0) {
            begin(orders);
            return;
        }
        if (child < 0)
            _exit(3);
        answer(orders, child);
    }
    _exit(0);
}
