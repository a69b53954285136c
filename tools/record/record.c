/* Records what a program asks of malloc and its kin, with its threads.
 *
 *     cc -O2 -Wall -Wextra -shared -fPIC -pthread -o record.so tools/record/record.c -ldl
 *     KEMIRONA_RECORD=ls.rec LD_PRELOAD=./record.so ls -l
 *
 * The record is text after a first line `kemirona-record 1 PID`, with zero bytes where a buffer was not filled:
 *
 *     NUMBER THREAD malloc SIZE ADDRESS             also calloc; the address is 0x0 where nothing was got
 *     NUMBER THREAD aligned SIZE ALIGNMENT ADDRESS
 *     NUMBER THREAD realloc BEFORE OLD SIZE ADDRESS
 *     NUMBER THREAD free ADDRESS
 *     NUMBER THREAD end                             the thread has ended
 *
 * Numbers are drawn from one counter, from 1 on without a gap: before an address is given back and after one was got,
 * so that in their order an address is never got before it was given back. A realloc does both and draws two, BEFORE
 * first.
 *
 * Each thread's buffer is a piece of the record's file, mapped into memory. What is written there is in the file at
 * once, so that nothing waits to be flushed at exit or fork, nor where the program is killed or begins another one. A
 * forked child and a program begun by another recorded one write files of their own, with the process's number behind
 * the name. Where an event can't be written its number is missing, and one line on standard error says so.
 */
#define _GNU_SOURCE
#include <dlfcn.h>
#include <errno.h>
#include <fcntl.h>
#include <limits.h>
#include <pthread.h>
#include <stdatomic.h>
#include <stdbool.h>
#include <stddef.h>
#include <stdint.h>
#include <stdlib.h>
#include <string.h>
#include <sys/mman.h>
#include <sys/resource.h>
#include <sys/stat.h>
#include <unistd.h>

#define BUFFER_BYTES 65536
#define LINE_BYTES 192
#define MOST_SPARES 64
#define BOOT_BYTES 65536
#define NAME_BYTES (PATH_MAX + 32)

/* ---- the real functions ---- */

static void *(*real_malloc)(size_t);
static void *(*real_calloc)(size_t, size_t);
static void *(*real_realloc)(void *, size_t);
static void (*real_free)(void *);
static void *(*real_memalign)(size_t, size_t);
static void *(*real_aligned_alloc)(size_t, size_t);
static int (*real_posix_memalign)(void **, size_t, size_t);

/* dlsym may ask for memory before the real functions are known. It gets it from here, and it is never given back. */
static _Alignas(64) char boot[BOOT_BYTES];
static size_t boot_used;

static bool is_boot(const void *address) {
    return (const char *)address >= boot && (const char *)address < boot + BOOT_BYTES;
}

static void *boot_malloc(size_t size) {
    if (size > BOOT_BYTES - 64 - boot_used) {
        errno = ENOMEM;
        return NULL;
    }
    void *got = boot + boot_used;
    boot_used += (size + 63) / 64 * 64;
    return got;
}

static void look_up(void *function, const char *word) {
    void *found = dlsym(RTLD_NEXT, word);
    memcpy(function, &found, sizeof found);
}

/* ---- the record's file ---- */

struct buffer {
    char *base, *at, *end;
};

struct thread {
    struct buffer buffer;
    unsigned number;
    int inside;         /* calls made by the recorder, or by the real functions, are not recorded */
    int rounds;         /* of the key's destructors */
};

/* Static thread storage: finding it never asks for memory. */
static _Thread_local struct thread me __attribute__((tls_model("initial-exec")));

static atomic_ullong last_number;
static atomic_uint threads;
static atomic_bool has_said_lost;
static pthread_key_t end_key;
static bool has_key;

/* This lock guards what follows. */
static pthread_mutex_t lock;
static char name[NAME_BYTES];       /* as asked; empty where nothing is to be recorded */
static char path[NAME_BYTES + 64];  /* of this process's file; empty before it is made */
static bool is_named, is_child;
static int file = -1;
static dev_t file_device;
static ino_t file_inode;
static off_t file_bytes;
static struct buffer spares[MOST_SPARES];
static size_t spare_count;

static char *put_text(char *at, const char *text) {
    size_t length = strlen(text);
    memcpy(at, text, length);
    return at + length;
}

static char *put_digits(char *at, unsigned long long number, unsigned base) {
    char digits[24];
    size_t count = 0;
    do {
        digits[count++] = "0123456789abcdef"[number % base];
        number /= base;
    } while (number);
    while (count)
        *at++ = digits[--count];
    return at;
}

static char *put_number(char *at, unsigned long long number) {
    *at++ = ' ';
    return put_digits(at, number, 10);
}

static char *put_address(char *at, const void *address) {
    return put_digits(put_text(at, " 0x"), (uintptr_t)address, 16);
}

static void say(const char *what) {
    char line[NAME_BYTES + 128];
    char *at = put_text(put_text(line, "record: "), name);
    at = put_text(put_text(at, what), "\n");
    if (write(STDERR_FILENO, line, (size_t)(at - line)) < 0)
        return; /* there is no place left to say it */
}

static void find_name(void) {
    const char *asked = getenv("KEMIRONA_RECORD");
    is_named = true;
    if (!asked || !*asked || strlen(asked) > PATH_MAX / 2) {
        say("KEMIRONA_RECORD names no file, so that nothing is recorded");
        return;
    }
    char *at = name;
    if (*asked != '/') { /* the program may go to another folder before the file is opened */
        if (!getcwd(name, PATH_MAX / 2)) {
            name[0] = 0;
            say("the folder's name is not found, so that nothing is recorded");
            return;
        }
        at = put_text(name + strlen(name), "/");
    }
    at = put_text(at, asked);
    *at = 0;
    static char mark[] = "KEMIRONA_RECORD_BEGUN=1";
    is_child = getenv("KEMIRONA_RECORD_BEGUN") != NULL;
    if (putenv(mark))
        say(": a program that this one begins may write the same file");
}

/* Makes the file of this process, which no other one of this recording has, and leaves its name in `path`. */
static int make_file(void) {
    char *at = put_text(path, name);
    *at = 0;
    if (!is_child) {
        struct stat old; /* an old record goes, and is not written over: a process may still have it mapped */
        if (!lstat(path, &old) && S_ISREG(old.st_mode))
            unlink(path);
        return open(path, O_RDWR | O_CREAT | O_CLOEXEC, 0666);
    }
    char *own = put_digits(put_text(at, "."), (unsigned long long)getpid(), 10);
    *own = 0;
    int made = open(path, O_RDWR | O_CREAT | O_EXCL | O_CLOEXEC, 0666);
    for (unsigned turn = 2; made < 0 && errno == EEXIST && turn < 1000; turn++) {
        at = put_digits(put_text(own, "."), turn, 10);
        *at = 0;
        made = open(path, O_RDWR | O_CREAT | O_EXCL | O_CLOEXEC, 0666);
    }
    return made;
}

/* Programs close what they have not opened, so that the number may be another file's by now. */
static bool is_ours(int opened) {
    struct stat found;
    return opened >= 0 && !fstat(opened, &found) && found.st_dev == file_device && found.st_ino == file_inode;
}

static bool has_file(void) {
    struct stat made;
    bool is_first = !path[0];
    if (!is_first && is_ours(file))
        return true;
    int opened = is_first ? make_file() : open(path, O_RDWR | O_CLOEXEC);
    if (is_first && opened >= 0 && !fstat(opened, &made)) {
        file_device = made.st_dev;
        file_inode = made.st_ino;
    }
    if (!is_ours(opened)) {
        if (opened >= 0)
            close(opened);
        return false;
    }
    file = fcntl(opened, F_DUPFD_CLOEXEC, 512); /* out of the way of the numbers that programs count on */
    if (file < 0)
        file = opened;
    else
        close(opened);
    return true;
}

/* A new piece of the file, or one that an ended thread has left. */
static bool take_buffer(struct buffer *buffer) {
    if (spare_count) {
        *buffer = spares[--spare_count];
        return true;
    }
    struct rlimit most; /* to go past it would end the program */
    bool is_limited = !getrlimit(RLIMIT_FSIZE, &most) && most.rlim_cur != RLIM_INFINITY;
    if (!has_file() || (is_limited && (rlim_t)file_bytes + BUFFER_BYTES > most.rlim_cur))
        return false;
    if (posix_fallocate(file, file_bytes, BUFFER_BYTES))
        return false;
    char *base = mmap(NULL, BUFFER_BYTES, PROT_READ | PROT_WRITE, MAP_SHARED, file, file_bytes);
    if (base == MAP_FAILED)
        return false;
    *buffer = (struct buffer){base, base, base + BUFFER_BYTES};
    if (file_bytes == 0) {
        buffer->at = put_number(put_text(base, "kemirona-record 1"), (unsigned long long)getpid());
        *buffer->at++ = '\n';
    }
    file_bytes += BUFFER_BYTES;
    return true;
}

static bool fits_line(const struct buffer *buffer) { return buffer->base && buffer->end - buffer->at >= LINE_BYTES; }

static void leave_buffer(void) {
    if (me.buffer.base)
        munmap(me.buffer.base, BUFFER_BYTES);
    me.buffer = (struct buffer){NULL, NULL, NULL};
}

static bool has_room(void) {
    if (fits_line(&me.buffer))
        return true;
    leave_buffer();
    pthread_mutex_lock(&lock);
    if (!is_named)
        find_name();
    bool is_wanted = name[0] != 0;
    bool has = is_wanted && take_buffer(&me.buffer);
    pthread_mutex_unlock(&lock);
    if (is_wanted && !has && !atomic_exchange(&has_said_lost, true))
        say(": events are lost, since the file can't be written");
    return has;
}

/* ---- events ---- */

static unsigned long long draw(void) { return atomic_fetch_add(&last_number, 1) + 1; }

static char *begin_line(char *line, unsigned long long number, const char *word) {
    if (!me.number) {
        me.number = atomic_fetch_add(&threads, 1) + 1;
        if (has_key)
            pthread_setspecific(end_key, &me);
    }
    char *at = put_number(put_digits(line, number, 10), me.number);
    *at++ = ' ';
    return put_text(at, word);
}

static void end_line(char *line, char *at) {
    *at++ = '\n';
    if (has_room()) {
        memcpy(me.buffer.at, line, (size_t)(at - line));
        me.buffer.at += at - line;
    }
}

static void record_malloc(size_t size, const void *got) {
    char line[LINE_BYTES];
    char *at = put_number(begin_line(line, draw(), "malloc"), size);
    end_line(line, put_address(at, got));
}

static void record_aligned(size_t size, size_t alignment, const void *got) {
    char line[LINE_BYTES];
    char *at = put_number(begin_line(line, draw(), "aligned"), size);
    end_line(line, put_address(put_number(at, alignment), got));
}

static void record_realloc(unsigned long long before, const void *old, size_t size, const void *got) {
    char line[LINE_BYTES];
    char *at = put_number(begin_line(line, draw(), "realloc"), before);
    end_line(line, put_address(put_number(put_address(at, old), size), got));
}

static void record_free(const void *address) {
    char line[LINE_BYTES];
    end_line(line, put_address(begin_line(line, draw(), "free"), address));
}

/* ---- threads and forks ---- */

/* Other keys' destructors free memory too, so the end is told in the last round of destructors. */
static void thread_ends(void *value) {
    char line[LINE_BYTES];
    int saved = errno;
    me.inside++;
    if (++me.rounds < PTHREAD_DESTRUCTOR_ITERATIONS) {
        pthread_setspecific(end_key, value);
    } else {
        end_line(line, begin_line(line, draw(), "end"));
        pthread_mutex_lock(&lock);
        if (fits_line(&me.buffer) && spare_count < MOST_SPARES) {
            spares[spare_count++] = me.buffer;
            me.buffer = (struct buffer){NULL, NULL, NULL};
        }
        pthread_mutex_unlock(&lock);
        leave_buffer();
    }
    me.inside--;
    errno = saved;
}

/* Other handlers of a fork may ask for memory while the forking thread has the lock, so it may take it again. */
static void make_lock(void) {
    pthread_mutexattr_t kind;
    pthread_mutexattr_init(&kind);
    pthread_mutexattr_settype(&kind, PTHREAD_MUTEX_RECURSIVE);
    pthread_mutex_init(&lock, &kind);
    pthread_mutexattr_destroy(&kind);
}

static void before_fork(void) { pthread_mutex_lock(&lock); }

static void after_fork(void) { pthread_mutex_unlock(&lock); }

/* The child shares the parent's pieces of the file, so it leaves them and begins a record of its own. */
static void begin_child(void) {
    leave_buffer();
    for (size_t i = 0; i < spare_count; i++)
        munmap(spares[i].base, BUFFER_BYTES);
    spare_count = 0;
    if (path[0] && is_ours(file))
        close(file);
    file = -1;
    file_bytes = 0;
    path[0] = 0;
    is_child = true;
    me.number = 0;
    me.rounds = 0;
    atomic_store(&threads, 0);
    atomic_store(&last_number, 0);
    atomic_store(&has_said_lost, false);
    make_lock();
}

static void begin(void) {
    make_lock();
    look_up(&real_calloc, "calloc");
    look_up(&real_realloc, "realloc");
    look_up(&real_free, "free");
    look_up(&real_memalign, "memalign");
    look_up(&real_aligned_alloc, "aligned_alloc");
    look_up(&real_posix_memalign, "posix_memalign");
    look_up(&real_malloc, "malloc"); /* the last: it says that all are known */
    if (!real_malloc || !real_calloc || !real_realloc || !real_free) {
        say(": the real malloc is not found");
        _exit(127);
    }
    has_key = !pthread_key_create(&end_key, thread_ends);
    pthread_atfork(before_fork, after_fork, begin_child);
}

/* Whether this call is to be recorded. A first call looks up the real functions. */
static bool enter(void) {
    if (me.inside)
        return false;
    me.inside++;
    if (!real_malloc)
        begin();
    return true;
}

static void leave(void) { me.inside--; }

/* Before the program reads its environment, so that those which it begins are told that they are not the first. */
__attribute__((constructor)) static void begin_with_program(void) {
    me.inside++;
    if (!real_malloc)
        begin();
    pthread_mutex_lock(&lock);
    if (!is_named)
        find_name();
    pthread_mutex_unlock(&lock);
    me.inside--;
}

/* ---- what programs call ---- */

void *malloc(size_t size) {
    if (!enter())
        return real_malloc ? real_malloc(size) : boot_malloc(size);
    void *got = real_malloc(size);
    int saved = errno;
    record_malloc(size, got);
    leave();
    errno = saved;
    return got;
}

void *calloc(size_t count, size_t each) {
    size_t size;
    bool is_too_large = __builtin_mul_overflow(count, each, &size);
    if (!enter()) /* the boot memory is zero and is used once */
        return real_malloc ? real_calloc(count, each) : is_too_large ? NULL : boot_malloc(size);
    void *got = real_calloc(count, each);
    int saved = errno;
    record_malloc(is_too_large ? SIZE_MAX : size, got);
    leave();
    errno = saved;
    return got;
}

static void *move_out_of_boot(void *old, size_t size) {
    void *got = malloc(size);
    size_t room = (size_t)(boot + BOOT_BYTES - (char *)old);
    if (got)
        memcpy(got, old, size < room ? size : room);
    return got;
}

void *realloc(void *old, size_t size) {
    if (is_boot(old))
        return move_out_of_boot(old, size);
    if (!enter())
        return real_malloc ? real_realloc(old, size) : boot_malloc(size);
    unsigned long long before = draw();
    void *got = real_realloc(old, size);
    int saved = errno;
    record_realloc(before, old, size, got);
    leave();
    errno = saved;
    return got;
}

void *reallocarray(void *old, size_t count, size_t each) {
    size_t size;
    bool is_too_large = __builtin_mul_overflow(count, each, &size);
    return realloc(old, is_too_large ? SIZE_MAX : size); /* which no libc has */
}

void free(void *address) {
    if (is_boot(address))
        return;
    if (!enter()) {
        if (real_malloc)
            real_free(address);
        return;
    }
    int saved = errno;
    record_free(address);
    real_free(address);
    leave();
    errno = saved;
}

void *memalign(size_t alignment, size_t size) {
    if (!enter())
        return real_memalign ? real_memalign(alignment, size) : NULL;
    void *got = real_memalign(alignment, size);
    int saved = errno;
    record_aligned(size, alignment, got);
    leave();
    errno = saved;
    return got;
}

void *aligned_alloc(size_t alignment, size_t size) {
    if (!enter())
        return real_aligned_alloc ? real_aligned_alloc(alignment, size) : NULL;
    void *got = real_aligned_alloc(alignment, size);
    int saved = errno;
    record_aligned(size, alignment, got);
    leave();
    errno = saved;
    return got;
}

int posix_memalign(void **result, size_t alignment, size_t size) {
    if (!enter())
        return real_posix_memalign ? real_posix_memalign(result, alignment, size) : ENOMEM;
    int status = real_posix_memalign(result, alignment, size);
    int saved = errno;
    record_aligned(size, alignment, status ? NULL : *result);
    leave();
    errno = saved;
    return status;
}

void *valloc(size_t size) { return memalign((size_t)sysconf(_SC_PAGESIZE), size); }

void *pvalloc(size_t size) {
    size_t page = (size_t)sysconf(_SC_PAGESIZE);
    if (size > SIZE_MAX - page) {
        errno = ENOMEM;
        return NULL;
    }
    return memalign(page, (size + page - 1) / page * page);
}
