/* Standard input, an output, an error writer and a log that fail as the environment says. Loaded
 * before libc. NAME is OUTPUT, FAULTS or LOG, and what isn't said has no limit:
 *
 *   INPUT_ROOM   the input gives so many bytes, and then a read fails
 *   INPUT_ERROR  with this error
 *   INPUT_STEP   a read gives no more than so many bytes
 *   NAME_ROOM    NAME takes so many bytes, and then a write fails
 *   NAME_CALLS   it takes so many calls, writes and syncs, and then one fails
 *   NAME_STEP    a write takes no more than so many bytes
 *   INTERRUPTED  where it is said, each write that is taken is interrupted once before it takes any
 *   FAILED_CALL  of a call with this name, and of no stream, as ftruncate,
 *   FAILED_NUMBER  the so manyth fails
 *   CLOCK_STEP   the clock begins at 0, and goes on by so many milliseconds from call to call
 *   TOLD_TO      the calls that are taken are told in this file, each by a line as "LOG write 40",
 *                the one that FAILED_CALL has made fail by a line as "FAILED ftruncate", and what
 *                the clock said, where CLOCK_STEP is said, by a line as "CLOCK 40"
 *
 * A limit that has made a call fail is none from then on, so that it is seen where a program goes
 * on behind a failure. The log is the one plain file that is written or synced. */
#define _GNU_SOURCE
#include <dlfcn.h>
#include <errno.h>
#include <fcntl.h>
#include <limits.h>
#include <pthread.h>
#include <stdarg.h>
#include <stdio.h>
#include <stdlib.h>
#include <string.h>
#include <sys/stat.h>
#include <sys/syscall.h>
#include <time.h>
#include <unistd.h>

struct device {
    const char *name;
    long room;
    long calls;
    long step;
    int was_interrupted;
};

static struct device devices[] = {{.name = "OUTPUT"}, {.name = "FAULTS"}, {.name = "LOG"}};
static long input_room;
static long input_step;
static int input_error;
static int interrupts;
static const char *failed_call;
static long failed_number;
static long clock_step;
static long clock_said;
static int told = -1;

static long number_in(const char *device, const char *what)
{
    char name[32];
    snprintf(name, sizeof name, "%s%s", device, what);
    const char *said = getenv(name);
    return said ? atol(said) : LONG_MAX;
}

__attribute__((constructor)) static void begin(void)
{
    for (int it = 0; it < 3; it++) {
        devices[it].room = number_in(devices[it].name, "_ROOM");
        devices[it].calls = number_in(devices[it].name, "_CALLS");
        devices[it].step = number_in(devices[it].name, "_STEP");
    }
    input_room = number_in("INPUT", "_ROOM");
    input_step = number_in("INPUT", "_STEP");
    input_error = (int)number_in("INPUT", "_ERROR");
    interrupts = getenv("INTERRUPTED") != NULL;
    failed_call = getenv("FAILED_CALL");
    failed_number = number_in("FAILED", "_NUMBER");
    clock_step = number_in("CLOCK", "_STEP");
    const char *file = getenv("TOLD_TO");
    if (file)
        told = (int)syscall(SYS_openat, AT_FDCWD, file, O_WRONLY | O_CREAT | O_APPEND | O_CLOEXEC, 0666);
}

/* The device behind a descriptor, none for another one, such as a folder that is synced. */
static struct device *device_of(int descriptor)
{
    struct stat file;
    if (descriptor == STDOUT_FILENO || descriptor == STDERR_FILENO)
        return &devices[descriptor - STDOUT_FILENO];
    return fstat(descriptor, &file) == 0 && S_ISREG(file.st_mode) ? &devices[2] : NULL;
}

static int fail(int error)
{
    errno = error;
    return -1;
}

/* Whether nothing is left of a limit, which then is none from now on. */
static int is_over(long *left)
{
    if (*left > 0)
        return 0;
    *left = LONG_MAX;
    return 1;
}

/* Whether this call is the one of its name that fails. */
static int is_failed(const char *call)
{
    if (!failed_call || strcmp(call, failed_call) != 0 || --failed_number != 0)
        return 0;
    if (told >= 0)
        dprintf(told, "FAILED %s\n", call);
    return 1;
}

static long least(long one, long other)
{
    return one < other ? one : other;
}

/* Counts a call that was taken, and tells it. */
static void count(struct device *it, const char *what, long bytes)
{
    it->calls--;
    if (told >= 0)
        dprintf(told, "%s %s %ld\n", it->name, what, bytes);
}

ssize_t read(int descriptor, void *bytes, size_t size)
{
    if (descriptor != STDIN_FILENO)
        return is_failed("read") ? fail(EIO) : syscall(SYS_read, descriptor, bytes, size);
    if (is_over(&input_room))
        return fail(input_error);
    long given = syscall(SYS_read, descriptor, bytes, least(least(size, input_step), input_room));
    input_room -= given > 0 ? given : 0;
    return given;
}

ssize_t write(int descriptor, const void *bytes, size_t size)
{
    struct device *it = device_of(descriptor);
    if (!it)
        return syscall(SYS_write, descriptor, bytes, size);
    it->was_interrupted = interrupts && !it->was_interrupted;
    if (it->was_interrupted)
        return fail(EINTR);
    if (is_over(&it->room) || is_over(&it->calls))
        return fail(EIO);
    long taken = syscall(SYS_write, descriptor, bytes, least(least(size, it->step), it->room));
    if (taken >= 0) {
        it->room -= taken;
        count(it, "write", taken);
    }
    return taken;
}

ssize_t __write(int, const void *, size_t) __attribute__((alias("write")));

int open(const char *path, int flags, ...)
{
    va_list more;
    va_start(more, flags);
    mode_t mode = flags & O_CREAT ? va_arg(more, mode_t) : 0;
    va_end(more);
    return is_failed("open") ? fail(EIO) : (int)syscall(SYS_openat, AT_FDCWD, path, flags, mode);
}

int statx(int folder, const char *restrict path, int flags, unsigned mask,
          struct statx *restrict found)
{
    return is_failed("statx") ? fail(EIO) : (int)syscall(SYS_statx, folder, path, flags, mask, found);
}

int flock(int descriptor, int how)
{
    return is_failed("flock") ? fail(EIO) : (int)syscall(SYS_flock, descriptor, how);
}

int ftruncate(int descriptor, off_t size)
{
    return is_failed("ftruncate") ? fail(EIO) : (int)syscall(SYS_ftruncate, descriptor, size);
}

int rename(const char *from, const char *to)
{
    return is_failed("rename") ? fail(EIO) : (int)syscall(SYS_rename, from, to);
}

int pthread_create(pthread_t *thread, const pthread_attr_t *how, void *(*run)(void *), void *with)
{
    int (*create)(pthread_t *, const pthread_attr_t *, void *(*)(void *), void *);
    if (is_failed("pthread_create"))
        return EAGAIN;
    *(void **)&create = dlsym(RTLD_NEXT, "pthread_create");
    return create(thread, how, run, with);
}

int clock_gettime(clockid_t clock, struct timespec *time)
{
    if (clock_step == LONG_MAX)
        return (int)syscall(SYS_clock_gettime, clock, time);
    if (told >= 0)
        dprintf(told, "CLOCK %ld\n", clock_said);
    time->tv_sec = clock_said / 1000;
    time->tv_nsec = clock_said % 1000 * 1000000;
    clock_said += clock_step;
    return 0;
}

static int sync_by(long call, int descriptor)
{
    struct device *it = device_of(descriptor);
    if ((call == SYS_fsync && is_failed("fsync")) || (it && is_over(&it->calls)))
        return fail(EIO);
    int done = (int)syscall(call, descriptor);
    if (it && done == 0)
        count(it, "sync", 0);
    return done;
}

int fsync(int descriptor)
{
    return sync_by(SYS_fsync, descriptor);
}

int fdatasync(int descriptor)
{
    return sync_by(SYS_fdatasync, descriptor);
}
