/* Loaded before a program's other libraries, this refuses its calls of one kind. Compiled with WRAPPED, and linked into a
 * program with --wrap=malloc and so on, it refuses memory alone, also where the program has a malloc of its own.
 *
 *     REFUSE_KIND   memory, read, write, open, thread or keys (random bytes); or what is counted and not refused:
 *                   growth (a list of 64 KiB or more made larger), yield, nap (a wait that ends by itself),
 *                   long (such a wait of a millisecond or more)
 *     REFUSE_HOW    once: the call REFUSE_AT fails; on: that one and all after it fail; short: it moves one byte;
 *                   bytes: that one and all after it move one byte; none: it moves no byte; signal: it is interrupted
 *     REFUSE_AT     a number from 1
 *     REFUSE_TELL   a descriptor; it gets a byte when a call is refused
 *
 * What runs before the program's own constructors isn't counted, nor is the memory that the C library takes to
 * start a thread. The program waits by a call of the system that goes through no library, so a filter stops these
 * calls where they are counted. */
#define _GNU_SOURCE
#include <dlfcn.h>
#include <errno.h>
#include <fcntl.h>
#include <linux/filter.h>
#include <linux/futex.h>
#include <linux/seccomp.h>
#include <pthread.h>
#include <signal.h>
#include <stdarg.h>
#include <stddef.h>
#include <stdlib.h>
#include <string.h>
#include <sys/prctl.h>
#include <sys/syscall.h>
#include <sys/uio.h>
#include <time.h>
#include <ucontext.h>
#include <unistd.h>

#ifdef WRAPPED
#define CALL(name) __wrap_##name
#define REAL(name) __real_##name
#else
#define CALL(name) name
#define REAL(name) __libc_##name
#endif

void *REAL(malloc)(size_t), *REAL(calloc)(size_t, size_t);
void *REAL(realloc)(void *, size_t), *REAL(memalign)(size_t, size_t);

static const char *kind = "", *how = "";
static long at, counted;
static int tell = -1, told;

static int is(const char *word, const char *wanted) { return strcmp(word, wanted) == 0; }

#ifdef WRAPPED
static void stop_naps(void) {}
#else
static void stop_naps(void);
#endif

__attribute__((constructor)) static void begin(void) {
    if (!getenv("REFUSE_KIND")) return;
    how = getenv("REFUSE_HOW");
    at = atol(getenv("REFUSE_AT"));
    tell = atoi(getenv("REFUSE_TELL"));
    kind = getenv("REFUSE_KIND");
    if (is(kind, "nap") || is(kind, "long")) stop_naps();
}

/* Whether this call of the kind is one to refuse. */
static int refused(const char *of) {
    if (!is(kind, of)) return 0;
    long number = __atomic_add_fetch(&counted, 1, __ATOMIC_SEQ_CST);
    if (is(how, "on") || is(how, "bytes") ? number < at : number != at) return 0;
    if (!__atomic_exchange_n(&told, 1, __ATOMIC_SEQ_CST) && syscall(SYS_write, tell, "x", 1) != 1) abort();
    return 1;
}

enum { LARGE = 65536, BILLION = 1000000000, MILLISECOND = 1000000 };

static __thread int starting;

static int no_memory(void) { return !starting && refused("memory") ? (errno = ENOMEM) : 0; }

void *CALL(malloc)(size_t size) { return no_memory() ? NULL : REAL(malloc)(size); }
void *CALL(calloc)(size_t count, size_t size) { return no_memory() ? NULL : REAL(calloc)(count, size); }

void *CALL(realloc)(void *old, size_t size) {
    if (old && size >= LARGE) refused("growth");
    return no_memory() ? NULL : REAL(realloc)(old, size);
}

void *CALL(memalign)(size_t to, size_t size) { return no_memory() ? NULL : REAL(memalign)(to, size); }
void *CALL(aligned_alloc)(size_t to, size_t size) { return CALL(memalign)(to, size); }

int CALL(posix_memalign)(void **made, size_t to, size_t size) {
    return (*made = CALL(memalign)(to, size)) ? 0 : ENOMEM;
}

#ifndef WRAPPED

/* The bytes that a read or write may move, or -1 where it fails. */
static ssize_t allowed(const char *of, size_t size) {
    if (!refused(of)) return size;
    if (is(how, "short") || is(how, "bytes")) return size < 1 ? size : 1;
    if (is(how, "none")) return 0;
    errno = is(how, "signal") ? EINTR : EIO;
    return -1;
}

static ssize_t moved(const char *of, long call, int file, long bytes, size_t size) {
    ssize_t count = allowed(of, size);
    return count < 0 || (count == 0 && size) ? count : syscall(call, file, bytes, count);
}

static ssize_t moved_parts(const char *of, long call, int file, const struct iovec *parts, int count) {
    struct iovec part = {count ? parts[0].iov_base : NULL, count ? parts[0].iov_len : 0};
    ssize_t most = allowed(of, part.iov_len);
    if (most < 0 || (size_t)most == part.iov_len) return most < 0 ? most : syscall(call, file, parts, count);
    part.iov_len = most;
    return most ? syscall(call, file, &part, 1) : 0;
}

ssize_t read(int file, void *bytes, size_t size) { return moved("read", SYS_read, file, (long)bytes, size); }
ssize_t __read(int file, void *bytes, size_t size) { return read(file, bytes, size); }
ssize_t write(int file, const void *bytes, size_t size) { return moved("write", SYS_write, file, (long)bytes, size); }
ssize_t __write(int file, const void *bytes, size_t size) { return write(file, bytes, size); }

ssize_t readv(int file, const struct iovec *parts, int count) {
    return moved_parts("read", SYS_readv, file, parts, count);
}

ssize_t writev(int file, const struct iovec *parts, int count) {
    return moved_parts("write", SYS_writev, file, parts, count);
}

int open(const char *path, int flags, ...) {
    va_list more;
    va_start(more, flags);
    int mode = va_arg(more, int);
    va_end(more);
    return refused("open") ? (errno = EMFILE, -1) : (int)syscall(SYS_openat, AT_FDCWD, path, flags, mode);
}

int getentropy(void *bytes, size_t size) {
    if (refused("keys")) return errno = EIO, -1;
    return syscall(SYS_getrandom, bytes, size, 0) == (long)size ? 0 : -1;
}

int pthread_create(pthread_t *thread, const pthread_attr_t *attr, void *(*start)(void *), void *given) {
    int (*real)(pthread_t *, const pthread_attr_t *, void *(*)(void *), void *) = dlsym(RTLD_NEXT, "pthread_create");
    if (refused("thread")) return EAGAIN;
    starting = 1;
    int answer = real(thread, attr, start, given);
    starting = 0;
    return answer;
}

int sched_yield(void) {
    refused("yield");
    return syscall(SYS_sched_yield);
}

/* Counts a wait that was stopped, and waits in another form, up to a time and not for one, which is let pass. */
static void on_wait(int number, siginfo_t *about, void *context) {
    (void)number, (void)about;
    greg_t *at = ((ucontext_t *)context)->uc_mcontext.gregs;
    const struct timespec *most = (const struct timespec *)at[REG_R10];
    int ends = most->tv_sec < BILLION, before = errno;
    if (ends) refused("nap");
    if (ends && (most->tv_sec || most->tv_nsec >= MILLISECOND)) refused("long");
    struct timespec end;
    clock_gettime(CLOCK_MONOTONIC, &end);
    end.tv_sec += most->tv_sec + (end.tv_nsec + most->tv_nsec) / BILLION;
    end.tv_nsec = (end.tv_nsec + most->tv_nsec) % BILLION;
    long how = (at[REG_RSI] & ~FUTEX_CMD_MASK) | FUTEX_WAIT_BITSET;
    long answer = syscall(SYS_futex, at[REG_RDI], how, at[REG_RDX], ends ? &end : NULL, NULL, FUTEX_BITSET_MATCH_ANY);
    at[REG_RAX] = answer < 0 ? -errno : answer;
    errno = before;
}

#define LOAD(part) BPF_STMT(BPF_LD | BPF_W | BPF_ABS, offsetof(struct seccomp_data, part))
#define UNLESS(value, skip) BPF_JUMP(BPF_JMP | BPF_JEQ | BPF_K, value, 0, skip)

/* Stops each wait on a word of memory that has a length. */
static void stop_naps(void) {
    struct sock_filter steps[] = {
        LOAD(nr), UNLESS(SYS_futex, 5),
        LOAD(args[1]), BPF_STMT(BPF_ALU | BPF_AND | BPF_K, (unsigned)FUTEX_CMD_MASK), UNLESS(FUTEX_WAIT, 2),
        LOAD(args[3]), BPF_JUMP(BPF_JMP | BPF_JEQ | BPF_K, 0, 0, 1),
        BPF_STMT(BPF_RET | BPF_K, SECCOMP_RET_ALLOW), BPF_STMT(BPF_RET | BPF_K, SECCOMP_RET_TRAP),
    };
    struct sock_fprog filter = {sizeof steps / sizeof *steps, steps};
    struct sigaction action = {.sa_sigaction = on_wait, .sa_flags = SA_SIGINFO | SA_NODEFER};
    if (sigaction(SIGSYS, &action, NULL) || prctl(PR_SET_NO_NEW_PRIVS, 1, 0, 0, 0)) abort();
    if (prctl(PR_SET_SECCOMP, SECCOMP_MODE_FILTER, &filter)) abort();
}

#endif
