/* The library that tools/record/record loads before a program's own: each call of malloc and its kin is
   passed on to the C library, and noted in a log of the process.

   A log is a file that is mapped into memory, so a note is a store: no call of the system, no descriptor that
   the program could close, and nothing to write out at an end, whatever end it is. It has a head of one page
   and then the notes, each at a place of its own, which one counter for all threads gives out. The places are
   the order: a free takes its place before the block is given back, and an allocation after it was got. So a
   block's free is behind its allocation, and before the allocation that gets the address next.

   Nothing here allocates. tools/record/logs.py reads the log, and has the same numbers. */
#define _GNU_SOURCE
#include <dlfcn.h>
#include <errno.h>
#include <fcntl.h>
#include <stdatomic.h>
#include <stdint.h>
#include <stdlib.h>
#include <string.h>
#include <sys/mman.h>
#include <sys/resource.h>
#include <sys/statvfs.h>
#include <unistd.h>

#define PAGE_BYTES 4096
#define PATH_BYTES 4096
#define NAME_BYTES 256
#define EARLY_BYTES 65536
#define USUAL_PLACES 4194304
#define MOST_LOGS 100000
#define EXPORTED __attribute__((visibility("default")))

/* What a note says. A place that was given out and not yet written is UNFINISHED. */
enum kind {
    UNFINISHED = 0,
    ALLOCATION = 1,
    ALIGNED = 2,    /* an allocation that asked for an alignment */
    FREE = 3,
    MOVED = 4,      /* a free by realloc, whose allocation comes behind it */
    KEPT = 5        /* a realloc that failed, so that its block stays */
};

struct note {
    uint64_t address;
    uint64_t size;
    uint32_t thread;
    _Atomic uint32_t kind;
};

struct log {
    char magic[8];
    uint64_t capacity;              /* places that the file has */
    _Atomic uint64_t calls;         /* places that were given out; those from `capacity` on are only counted */
    _Atomic uint64_t null_frees;
    _Atomic uint64_t failures;      /* allocations that got nothing */
    _Atomic uint64_t early;         /* calls before the log was open */
    _Atomic uint64_t threads;
    uint64_t process;
    uint64_t parent;                /* the process that this one came of */
    char program[NAME_BYTES];
};

_Static_assert(sizeof(struct log) <= PAGE_BYTES, "the head fits its page");
_Static_assert(sizeof(struct note) == 24, "a note is as the log's reader has it");

/* Whether this process has a log. */
enum phase { NONE, OPENING, OPEN, OFF };

/* What a child of fork must not take over from its parent. It stands in a page that the system wipes in the
   child, however that was made; a child of vfork, which lives in its parent's memory, goes on in its log. */
struct process {
    _Atomic int phase;
    pid_t owner;
    struct log *log;
};

static struct process *_Atomic own_page;
static int is_wiped_at_fork;
static _Atomic uint64_t early_calls;
static uint32_t openings;

/* Where the logs go, and how many places one has. It is kept when the environment has been read once, so that a
   program may change its environment, and its children have logs too. */
static struct {
    char folder[PATH_BYTES];
    uint64_t places;
} wish;

/* The number of this thread in the log that was opened as the `opening`-th. */
static __thread struct {
    uint32_t opening;
    uint32_t number;
} this_thread;

/* The C library's own calls. */
static struct {
    _Atomic int phase;
    void *(*malloc)(size_t);
    void *(*calloc)(size_t, size_t);
    void *(*realloc)(void *, size_t);
    void (*free)(void *);
    void *(*memalign)(size_t, size_t);
    void *(*aligned_alloc)(size_t, size_t);
    int (*posix_memalign)(void **, size_t, size_t);
    void *(*valloc)(size_t);
    void *(*pvalloc)(size_t);
} real;

/* ---- Before the C library's calls are known ---- */

/* Looking a call up may itself allocate. Such blocks come from here, and are never used again. */
static _Alignas(16) char early_blocks[EARLY_BYTES];
static size_t early_bytes;

static int is_early(const void *block)
{
    const char *at = block;
    return at >= early_blocks && at < early_blocks + EARLY_BYTES;
}

/* A block of zeros, with its size in the 16 bytes before it. */
static void *early_block(size_t size)
{
    size_t bytes = 16 + ((size + 15) & ~(size_t)15);
    if (size > EARLY_BYTES || bytes > EARLY_BYTES - early_bytes) {
        errno = ENOMEM;
        return NULL;
    }
    char *start = early_blocks + early_bytes;
    early_bytes += bytes;
    memcpy(start, &size, sizeof size);
    atomic_fetch_add(&early_calls, 1);
    return start + 16;
}

static size_t early_size(const void *block)
{
    size_t size;
    memcpy(&size, (const char *)block - 16, sizeof size);
    return size;
}

static void look_up_all(void)
{
    *(void **)&real.malloc = dlsym(RTLD_NEXT, "malloc");
    *(void **)&real.calloc = dlsym(RTLD_NEXT, "calloc");
    *(void **)&real.realloc = dlsym(RTLD_NEXT, "realloc");
    *(void **)&real.free = dlsym(RTLD_NEXT, "free");
    *(void **)&real.memalign = dlsym(RTLD_NEXT, "memalign");
    *(void **)&real.aligned_alloc = dlsym(RTLD_NEXT, "aligned_alloc");
    *(void **)&real.posix_memalign = dlsym(RTLD_NEXT, "posix_memalign");
    *(void **)&real.valloc = dlsym(RTLD_NEXT, "valloc");
    *(void **)&real.pvalloc = dlsym(RTLD_NEXT, "pvalloc");
}

/* Whether the C library's calls are known. The program's first call, when it has one thread, finds them. */
static int is_ready(void)
{
    int phase = atomic_load_explicit(&real.phase, memory_order_acquire);
    if (phase == NONE && atomic_compare_exchange_strong(&real.phase, &phase, OPENING)) {
        look_up_all();
        atomic_store_explicit(&real.phase, OPEN, memory_order_release);
        return 1;
    }
    return phase == OPEN;
}

/* ---- The log ---- */

/* The page that is wiped, once for all threads. */
static struct process *new_page(void)
{
    int saved = errno;
    struct process *page = mmap(NULL, PAGE_BYTES, PROT_READ | PROT_WRITE, MAP_PRIVATE | MAP_ANONYMOUS, -1, 0);
    if (page == MAP_FAILED)
        return NULL;
    is_wiped_at_fork = madvise(page, PAGE_BYTES, MADV_WIPEONFORK) == 0;
    struct process *other = NULL;
    if (!atomic_compare_exchange_strong(&own_page, &other, page)) {
        munmap(page, PAGE_BYTES);
        page = other;
    }
    errno = saved;
    return page;
}

/* The state of this process. A system that can't wipe a page is asked for the process's number each time. */
static struct process *own_process(void)
{
    struct process *own = atomic_load_explicit(&own_page, memory_order_acquire);
    if (!own)
        own = new_page();
    if (own && !is_wiped_at_fork && own->owner != getpid()) {
        own->owner = getpid();
        atomic_store(&own->phase, NONE);
    }
    return own;
}

/* Copies a text behind a place, and gives the place of its end. */
static char *put_text(char *at, char *end, const char *text)
{
    while (*text && at < end)
        *at++ = *text++;
    *at = 0;
    return at;
}

static char *put_number(char *at, char *end, unsigned long number)
{
    char digits[24];
    char *first = digits + sizeof digits - 1;
    *first = 0;
    do
        *--first = (char)('0' + number % 10);
    while (number /= 10);
    return put_text(at, end, first);
}

static unsigned long number_of(const char *text)
{
    unsigned long number = 0;
    while (text && *text >= '0' && *text <= '9')
        number = number * 10 + (unsigned long)(*text++ - '0');
    return number;
}

/* The descriptor of a new file FOLDER/PROCESS.N with the least free N: a process has one for each exec. */
static int new_file(void)
{
    char path[PATH_BYTES + 64];
    char *end = path + sizeof path - 1;
    char *at = put_text(path, end, wish.folder);
    at = put_number(put_text(at, end, "/"), end, (unsigned long)getpid());
    at = put_text(at, end, ".");
    for (unsigned long number = 0; number < MOST_LOGS; number++) {
        put_number(at, end, number);
        int file = open(path, O_RDWR | O_CREAT | O_EXCL | O_CLOEXEC, 0600);
        if (file >= 0 || errno != EEXIST)
            return file;
    }
    return -1;
}

/* So many places, or no more than fill a part of what a limit of the process allows. */
static uint64_t within(uint64_t most, int resource, uint64_t part)
{
    struct rlimit limit;
    if (getrlimit(resource, &limit) != 0 || limit.rlim_cur == RLIM_INFINITY)
        return most;
    uint64_t bytes = limit.rlim_cur / part;
    uint64_t places = bytes > PAGE_BYTES ? (bytes - PAGE_BYTES) / sizeof(struct note) : 0;
    return places < most ? places : most;
}

/* As many places as are wished for, but no more than fill half of the disk's room, a file of the greatest size, or
   a quarter of the addresses. */
static uint64_t capacity_of(int file)
{
    uint64_t most = wish.places;
    struct statvfs disk;
    if (fstatvfs(file, &disk) == 0) {
        uint64_t room = (uint64_t)disk.f_bavail * disk.f_frsize / 2 / sizeof(struct note);
        most = room < most ? room : most;
    }
    return within(within(most, RLIMIT_FSIZE, 1), RLIMIT_AS, 4);
}

/* A new log in memory, all zeros: the mapping outlasts the descriptor. */
static struct log *mapped(int file, uint64_t capacity)
{
    size_t bytes = PAGE_BYTES + capacity * sizeof(struct note);
    if (capacity == 0 || ftruncate(file, (off_t)bytes) != 0)
        return NULL;
    void *log = mmap(NULL, bytes, PROT_READ | PROT_WRITE, MAP_SHARED, file, 0);
    return log == MAP_FAILED ? NULL : log;
}

static void write_head(struct log *log, uint64_t capacity)
{
    log->capacity = capacity;
    log->process = (uint64_t)getpid();
    log->parent = (uint64_t)getppid();
    log->early = atomic_exchange(&early_calls, 0);
    if (readlink("/proc/self/exe", log->program, NAME_BYTES - 1) < 0)
        log->program[0] = 0;
    memcpy(log->magic, "tcrecord", 8);
}

static struct log *new_log(void)
{
    int file = new_file();
    if (file < 0)
        return NULL;
    uint64_t capacity = capacity_of(file);
    struct log *log = mapped(file, capacity);
    close(file);
    if (log)
        write_head(log, capacity);
    return log;
}

/* Whether it is known where the logs go. The environment isn't there yet at the very first calls. */
static int has_wish(void)
{
    if (wish.folder[0])
        return 1;
    const char *folder = environ ? getenv("TCREPLAY_RECORD_INTO") : NULL;
    if (!folder || strlen(folder) >= PATH_BYTES)
        return 0;
    unsigned long places = number_of(getenv("TCREPLAY_RECORD_CALLS"));
    wish.places = places ? places : USUAL_PLACES;
    strcpy(wish.folder, folder);
    return 1;
}

/* Opens the log of a process that has none yet, and gives the phase that it is in then. */
static int open_own(struct process *own)
{
    int saved = errno;
    own->log = new_log();
    openings++;
    errno = saved;
    return own->log ? OPEN : OFF;
}

/* The log of this process, or none. It is opened at the first call at which it is known where logs go. Another
   call that comes while it is being opened doesn't wait, since it may be a signal's in this thread. */
static struct log *own_log(void)
{
    struct process *own = own_process();
    if (!own)
        return NULL;
    int phase = atomic_load_explicit(&own->phase, memory_order_acquire);
    if (phase == NONE && has_wish() && atomic_compare_exchange_strong(&own->phase, &phase, OPENING)) {
        phase = open_own(own);
        atomic_store_explicit(&own->phase, phase, memory_order_release);
    }
    return phase == OPEN ? own->log : NULL;
}

/* A thread gets its number at its first note, and another one in a child of fork. */
static uint32_t thread_number(struct log *log)
{
    if (this_thread.opening != openings) {
        this_thread.opening = openings;
        this_thread.number = (uint32_t)atomic_fetch_add(&log->threads, 1);
    }
    return this_thread.number;
}

/* Takes the next place and writes a note there. Gives none where there is no log or no room. */
static struct note *note(enum kind kind, const void *address, size_t size)
{
    struct log *log = own_log();
    if (!log) {
        atomic_fetch_add_explicit(&early_calls, 1, memory_order_relaxed);
        return NULL;
    }
    uint64_t place = atomic_fetch_add(&log->calls, 1);
    if (place >= log->capacity)
        return NULL;
    struct note *at = (struct note *)((char *)log + PAGE_BYTES) + place;
    at->address = (uint64_t)(uintptr_t)address;
    at->size = size;
    at->thread = thread_number(log);
    atomic_store_explicit(&at->kind, kind, memory_order_release);
    return at;
}

/* Notes an allocation that has come back, and hands its block on. */
static void *noted(enum kind kind, void *block, size_t size)
{
    struct log *log;
    if (block)
        note(kind, block, size);
    else if ((log = own_log()))
        atomic_fetch_add(&log->failures, 1);
    return block;
}

/* ---- The calls ---- */

EXPORTED void *malloc(size_t size)
{
    if (!is_ready())
        return early_block(size);
    return noted(ALLOCATION, real.malloc(size), size);
}

EXPORTED void *calloc(size_t count, size_t size)
{
    size_t bytes = 0;
    int is_over = __builtin_mul_overflow(count, size, &bytes);
    if (!is_ready())
        return is_over ? NULL : early_block(bytes);
    return noted(ALLOCATION, real.calloc(count, size), bytes);
}

EXPORTED void free(void *block)
{
    if (!block) {
        struct log *log = own_log();
        if (log)
            atomic_fetch_add(&log->null_frees, 1);
        return;
    }
    if (is_early(block) || !is_ready())
        return;
    note(FREE, block, 0);
    real.free(block);
}

static void *moved_early(void *block, size_t size)
{
    void *moved = malloc(size);
    size_t old = early_size(block);
    return moved ? memcpy(moved, block, old < size ? old : size) : NULL;
}

/* The old block may go to another thread before this returns, so its free is noted first. Where the call
   fails, the old block stays, and that note is withdrawn. */
EXPORTED void *realloc(void *block, size_t size)
{
    if (!block)
        return malloc(size);
    if (is_early(block))
        return moved_early(block, size);
    if (!is_ready())
        return NULL;
    struct note *freed = note(MOVED, block, 0);
    void *moved = real.realloc(block, size);
    if (!moved && size && freed)
        atomic_store(&freed->kind, KEPT);
    return moved || size ? noted(ALLOCATION, moved, size) : NULL;
}

EXPORTED void *reallocarray(void *block, size_t count, size_t size)
{
    size_t bytes = 0;
    if (!__builtin_mul_overflow(count, size, &bytes))
        return realloc(block, bytes);
    errno = ENOMEM;
    return noted(ALLOCATION, NULL, 0);
}

EXPORTED int posix_memalign(void **block, size_t alignment, size_t size)
{
    if (!is_ready())
        return ENOMEM;
    int fault = real.posix_memalign(block, alignment, size);
    noted(ALIGNED, fault ? NULL : *block, size);
    return fault;
}

EXPORTED void *memalign(size_t alignment, size_t size)
{
    return is_ready() ? noted(ALIGNED, real.memalign(alignment, size), size) : NULL;
}

EXPORTED void *aligned_alloc(size_t alignment, size_t size)
{
    return is_ready() ? noted(ALIGNED, real.aligned_alloc(alignment, size), size) : NULL;
}

EXPORTED void *valloc(size_t size)
{
    return is_ready() ? noted(ALIGNED, real.valloc(size), size) : NULL;
}

EXPORTED void *pvalloc(size_t size)
{
    return is_ready() ? noted(ALIGNED, real.pvalloc(size), size) : NULL;
}

/* These two are newer than some C libraries. */

EXPORTED void free_sized(void *block, size_t size)
{
    (void)size;
    free(block);
}

EXPORTED void free_aligned_sized(void *block, size_t alignment, size_t size)
{
    (void)alignment;
    (void)size;
    free(block);
}
