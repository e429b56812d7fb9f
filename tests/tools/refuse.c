/* A library to preload into an executable: it refuses one growth, fails one call that changes or looks at a file, fails or shortens
 * one read or write, or kills the executable ahead of one such call, of those that it makes from the start of its `main` on. The
 * environment says which; numbers count from 1.
 *
 *   REFUSE_ALLOC=N   the Nth malloc, calloc, realloc, reallocarray, memalign, aligned_alloc or posix_memalign
 *                    answers that there is no memory
 *   FAIL_READ=N      the Nth read fails (EIO, or the number in FAIL_ERROR)
 *   FAIL_WRITE=N     the Nth write fails (EIO, or the number in FAIL_ERROR)
 *   SHORT_READ=N     the Nth read is asked for one byte alone
 *   SHORT_WRITE=N    the Nth write takes one byte alone
 *   ZERO_WRITE=N     the Nth write takes 0 bytes
 *   ONE_BYTE=1       every read gives, and every write takes, one byte at most
 *   FAIL_SYNC=N      the Nth fsync or fdatasync fails (EIO, or the number in FAIL_ERROR)
 *   FAIL_STAT=N      the Nth statx, by which a file is looked at, fails (EIO, or the number in FAIL_ERROR)
 *   FAIL_TRUNCATE=N  the Nth ftruncate fails, and likewise
 *   FAIL_LINK=N      the Nth link or linkat,
 *   FAIL_RENAME=N    the Nth rename or renameat,
 *   FAIL_UNLINK=N    the Nth unlink or unlinkat,
 *   FAIL_LOCK=N      the Nth flock, and
 *   FAIL_CHMOD=N     the Nth fchmod
 *   KILL_WRITE=N     the Nth write takes half of its bytes, and the process is killed (SIGKILL)
 *   KILL_SYNC=N      the process is killed ahead of the Nth fsync or fdatasync, and likewise
 *   KILL_TRUNCATE=N, KILL_LINK=N, KILL_RENAME=N, KILL_UNLINK=N, KILL_LOCK=N, KILL_CHMOD=N
 *   HOLD_SYNC=FILE   each fsync or fdatasync waits as long as FILE is there
 *   HOLD_MARK=FILE   each write of a host's mark, which begins with `!?HOST `, likewise
 *   SLOW_RENAME=MS   each rename waits so many milliseconds, and
 *   SLOW_LOCK=MS     each flock
 *   REFUSE_MET=FILE  FILE is made once the Nth call was met
 *
 * Writes to standard error are neither counted nor touched: the fault line goes there. A shortened call counts as met
 * where it was asked for more than one byte, a failed write where it was asked for one or more.
 *
 *   cc -O2 -Wall -Wextra -shared -fPIC -o refuse.so refuse.c -ldl
 *   LD_PRELOAD=./refuse.so REFUSE_ALLOC=3 ./program
 */
#define _GNU_SOURCE
#include <dlfcn.h>
#include <errno.h>
#include <fcntl.h>
#include <signal.h>
#include <stdatomic.h>
#include <stdint.h>
#include <stdlib.h>
#include <string.h>
#include <sys/file.h>
#include <sys/stat.h>
#include <sys/syscall.h>
#include <sys/uio.h>
#include <time.h>
#include <unistd.h>

extern void *__libc_malloc(size_t);
extern void *__libc_calloc(size_t, size_t);
extern void *__libc_realloc(void *, size_t);
extern void *__libc_memalign(size_t, size_t);

static long refuse_alloc, fail_read, fail_write, short_read, short_write, zero_write, one_byte, fail_stat, kill_write;
static int fail_error = EIO;
static const char *met_file, *hold_file, *hold_mark;
static atomic_bool in_main;
static atomic_long allocs, reads, writes, looks;

/* Calls of one kind that change a file: how many there were, which one fails, which one is not lived to see, how long each waits. */
struct deed {
    const char *fails, *kills, *waits;
    long fail, kill, wait;
    atomic_long count;
};

static struct deed syncs = {.fails = "FAIL_SYNC", .kills = "KILL_SYNC"};
static struct deed truncates = {.fails = "FAIL_TRUNCATE", .kills = "KILL_TRUNCATE"};
static struct deed links = {.fails = "FAIL_LINK", .kills = "KILL_LINK"};
static struct deed renames = {.fails = "FAIL_RENAME", .kills = "KILL_RENAME", .waits = "SLOW_RENAME"};
static struct deed unlinks = {.fails = "FAIL_UNLINK", .kills = "KILL_UNLINK"};
static struct deed locks = {.fails = "FAIL_LOCK", .kills = "KILL_LOCK", .waits = "SLOW_LOCK"};
static struct deed chmods = {.fails = "FAIL_CHMOD", .kills = "KILL_CHMOD"};
static struct deed *const deeds[] = {&syncs, &truncates, &links, &renames, &unlinks, &locks, &chmods};

static long number_of(const char *name) {
    const char *text = getenv(name);
    return text ? atol(text) : 0;
}

static void note_met(void) {
    int kept = errno;
    if (met_file) {
        long file = syscall(SYS_openat, AT_FDCWD, met_file, O_CREAT | O_WRONLY | O_CLOEXEC, 0644);
        if (file >= 0)
            syscall(SYS_close, file);
    }
    errno = kept;
}

/* The executable's start. What runs before its `main` is not counted. */

static int (*real_main)(int, char **, char **);

static int counted_main(int count, char **words, char **environment) {
    refuse_alloc = number_of("REFUSE_ALLOC");
    fail_read = number_of("FAIL_READ");
    fail_write = number_of("FAIL_WRITE");
    short_read = number_of("SHORT_READ");
    short_write = number_of("SHORT_WRITE");
    zero_write = number_of("ZERO_WRITE");
    one_byte = number_of("ONE_BYTE");
    fail_stat = number_of("FAIL_STAT");
    kill_write = number_of("KILL_WRITE");
    for (size_t i = 0; i < sizeof deeds / sizeof *deeds; i++) {
        deeds[i]->fail = number_of(deeds[i]->fails);
        deeds[i]->kill = number_of(deeds[i]->kills);
        deeds[i]->wait = deeds[i]->waits ? number_of(deeds[i]->waits) : 0;
    }
    met_file = getenv("REFUSE_MET");
    hold_file = getenv("HOLD_SYNC");
    hold_mark = getenv("HOLD_MARK");
    if (number_of("FAIL_ERROR"))
        fail_error = (int)number_of("FAIL_ERROR");
    atomic_store(&in_main, 1);
    return real_main(count, words, environment);
}

typedef int start_call(int (*)(int, char **, char **), int, char **, void (*)(void), void (*)(void), void (*)(void), void *);

int __libc_start_main(int (*main)(int, char **, char **), int count, char **words, void (*init)(void),
                      void (*fini)(void), void (*loader_fini)(void), void *stack_end) {
    start_call *start = (start_call *)dlsym(RTLD_NEXT, "__libc_start_main");
    if (!start)
        _exit(125);
    real_main = main;
    return start(counted_main, count, words, init, fini, loader_fini, stack_end);
}

/* Growths. */

static int is_refused(void) {
    if (!atomic_load(&in_main) || atomic_fetch_add(&allocs, 1) + 1 != refuse_alloc)
        return 0;
    note_met();
    return 1;
}

static void *no_memory(void) {
    errno = ENOMEM;
    return NULL;
}

void *malloc(size_t size) { return is_refused() ? no_memory() : __libc_malloc(size); }

void *calloc(size_t count, size_t size) { return is_refused() ? no_memory() : __libc_calloc(count, size); }

void *realloc(void *block, size_t size) {
    /* (a size of 0 gives the block back, which is no growth) */
    if (block && size == 0)
        return __libc_realloc(block, size);
    return is_refused() ? no_memory() : __libc_realloc(block, size);
}

void *reallocarray(void *block, size_t count, size_t size) {
    size_t total;
    if (__builtin_mul_overflow(count, size, &total))
        return no_memory();
    return realloc(block, total);
}

void *memalign(size_t alignment, size_t size) { return is_refused() ? no_memory() : __libc_memalign(alignment, size); }

void *aligned_alloc(size_t alignment, size_t size) { return memalign(alignment, size); }

int posix_memalign(void **block, size_t alignment, size_t size) {
    if (alignment < sizeof(void *) || (alignment & (alignment - 1)))
        return EINVAL;
    void *made = memalign(alignment, size);
    if (!made)
        return ENOMEM;
    *block = made;
    return 0;
}

/* Waits as long as a file is there. */
static void wait_held(const char *file) {
    int kept = errno;
    while (atomic_load(&in_main) && file && syscall(SYS_faccessat, AT_FDCWD, file, F_OK) == 0)
        nanosleep(&(struct timespec){.tv_nsec = 1000000}, NULL);
    errno = kept;
}

/* Reads and writes. */

static ssize_t failed(void) {
    note_met();
    errno = fail_error;
    return -1;
}

static void die(void) {
    note_met();
    syscall(SYS_kill, syscall(SYS_getpid), SIGKILL);
}

static ssize_t do_read(int from, void *bytes, size_t size) {
    if (!atomic_load(&in_main))
        return syscall(SYS_read, from, bytes, size);
    long turn = atomic_fetch_add(&reads, 1) + 1;
    if (turn == fail_read)
        return failed();
    if (turn == short_read && size > 1) {
        note_met();
        size = 1;
    }
    if (one_byte && size > 1)
        size = 1;
    return syscall(SYS_read, from, bytes, size);
}

static ssize_t do_write(int to, const void *bytes, size_t size) {
    if (!atomic_load(&in_main) || to == STDERR_FILENO || size == 0)
        return syscall(SYS_write, to, bytes, size);
    if (size >= 7 && memcmp(bytes, "!?HOST ", 7) == 0)
        wait_held(hold_mark);
    long turn = atomic_fetch_add(&writes, 1) + 1;
    if (turn == kill_write) {
        syscall(SYS_write, to, bytes, size / 2);
        die();
    }
    if (turn == fail_write)
        return failed();
    if (turn == zero_write) {
        note_met();
        return 0;
    }
    if (turn == short_write && size > 1) {
        note_met();
        size = 1;
    }
    if (one_byte && size > 1)
        size = 1;
    return syscall(SYS_write, to, bytes, size);
}

/* Of a vector of pieces the first that holds a byte is moved: a short move, which any caller must take. */

static const struct iovec *first_piece(const struct iovec *pieces, int count) {
    for (int i = 0; i < count; i++)
        if (pieces[i].iov_len)
            return &pieces[i];
    return NULL;
}

ssize_t read(int from, void *bytes, size_t size) { return do_read(from, bytes, size); }
ssize_t __read(int from, void *bytes, size_t size) { return do_read(from, bytes, size); }
ssize_t write(int to, const void *bytes, size_t size) { return do_write(to, bytes, size); }
ssize_t __write(int to, const void *bytes, size_t size) { return do_write(to, bytes, size); }

ssize_t readv(int from, const struct iovec *pieces, int count) {
    const struct iovec *piece = first_piece(pieces, count);
    return piece ? do_read(from, piece->iov_base, piece->iov_len) : syscall(SYS_readv, from, pieces, count);
}

ssize_t writev(int to, const struct iovec *pieces, int count) {
    const struct iovec *piece = first_piece(pieces, count);
    return piece ? do_write(to, piece->iov_base, piece->iov_len) : syscall(SYS_writev, to, pieces, count);
}

/* Syncs, and what changes a name or a file otherwise. */

/* Whether a call of this kind fails. */
static int is_failed(struct deed *deed) {
    if (!atomic_load(&in_main))
        return 0;
    long turn = atomic_fetch_add(&deed->count, 1) + 1;
    if (deed->wait) {
        struct timespec time = {deed->wait / 1000, deed->wait % 1000 * 1000000};
        nanosleep(&time, NULL);
    }
    if (turn == deed->kill)
        die();
    return turn == deed->fail;
}

int fsync(int file) {
    wait_held(hold_file);
    return is_failed(&syncs) ? (int)failed() : (int)syscall(SYS_fsync, file);
}

int fdatasync(int file) {
    wait_held(hold_file);
    return is_failed(&syncs) ? (int)failed() : (int)syscall(SYS_fdatasync, file);
}

int ftruncate(int file, off_t size) { return is_failed(&truncates) ? (int)failed() : (int)syscall(SYS_ftruncate, file, size); }
int ftruncate64(int file, off64_t size) { return ftruncate(file, size); }

int linkat(int from, const char *old, int to, const char *new, int flags) {
    return is_failed(&links) ? (int)failed() : (int)syscall(SYS_linkat, from, old, to, new, flags);
}

int link(const char *old, const char *new) { return linkat(AT_FDCWD, old, AT_FDCWD, new, 0); }

int renameat(int from, const char *old, int to, const char *new) {
    return is_failed(&renames) ? (int)failed() : (int)syscall(SYS_renameat2, from, old, to, new, 0);
}

int rename(const char *old, const char *new) { return renameat(AT_FDCWD, old, AT_FDCWD, new); }

int unlinkat(int folder, const char *path, int flags) {
    return is_failed(&unlinks) ? (int)failed() : (int)syscall(SYS_unlinkat, folder, path, flags);
}

int unlink(const char *path) { return unlinkat(AT_FDCWD, path, 0); }

int flock(int file, int how) { return is_failed(&locks) ? (int)failed() : (int)syscall(SYS_flock, file, how); }

int fchmod(int file, mode_t mode) { return is_failed(&chmods) ? (int)failed() : (int)syscall(SYS_fchmod, file, mode); }

/* Looks at a file. */

int statx(int folder, const char *path, int flags, unsigned mask, struct statx *file) {
    if (atomic_load(&in_main) && atomic_fetch_add(&looks, 1) + 1 == fail_stat)
        return (int)failed();
    return (int)syscall(SYS_statx, folder, path, flags, mask, file);
}
