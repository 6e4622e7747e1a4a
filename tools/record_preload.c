/* Stands before the C library (LD_PRELOAD) and notes each call of malloc and its kin in a file. tools/record builds and runs it.
 *
 * The environment names a folder in RECORD_FOLDER. Each process makes a file TIME.PID.NAME there, in microseconds: the number of notes, padded to HEADER bytes,
 * then the notes in the order of the calls. A block's address is noted after it was given and before it is taken back, so at each note it means
 * one block, whatever the threads do. Nothing here takes memory.
 *
 * The file grows by pieces, and its disk alone bounds it. After the last piece that the disk has room for no note is made, and calls are still counted.
 *
 * With RECORD_SITES the return addresses of each note are kept too, in TIME.PID.NAME.sites, and where modules lie in TIME.PID.NAME.modules. */
#define _GNU_SOURCE
#include <errno.h>
#include <execinfo.h>
#include <fcntl.h>
#include <link.h>
#include <pthread.h>
#include <sched.h>
#include <stdatomic.h>
#include <stddef.h>
#include <stdint.h>
#include <stdio.h>
#include <stdlib.h>
#include <string.h>
#include <sys/mman.h>
#include <time.h>
#include <unistd.h>

void *__libc_malloc(size_t);
void *__libc_calloc(size_t, size_t);
void *__libc_realloc(void *, size_t);
void *__libc_memalign(size_t, size_t);
void __libc_free(void *);

/* MOVES stands before a realloc, with the address that may change; MOVED behind it, with that of now, or with 0 where it was refused. */
enum kind { NONE, GIVEN, ALIGNED, FREED, MOVES, MOVED };
/* HEADER and the bytes of a piece are whole pages of every machine. So many pieces are more than a process may map. */
enum { HEADER = 1 << 16, PIECE = 1 << 16, MOST_PIECES = 1 << 16, FRAMES = 12 };

struct note {
    uint64_t address, bytes;
    uint32_t thread;
    _Atomic uint32_t kind;
};

static atomic_uint_fast64_t *_Atomic count; /* of the calls */
static struct note *_Atomic pieces[MOST_PIECES];
static uint64_t (*_Atomic sites[MOST_PIECES])[FRAMES]; /* NULL where they aren't wanted */
static char notes_file[512], sites_file[544];
static atomic_int full; /* whether a piece had no room */
static char modules[544];
static atomic_int state; /* 0 before the file is made, 1 while it is, 2 behind that, 3 where there is none */
static atomic_uint threads;
static __thread uint32_t thread_number __attribute__((tls_model("initial-exec")));

/* A forked child has notes of its own, which begin with its first call. */
static void forget(void) {
    for (int number = 0; number < MOST_PIECES; number++) {
        if (pieces[number]) pieces[number] = NULL;
        if (sites[number]) sites[number] = NULL;
    }
    count = NULL;
    sites_file[0] = 0;
    full = 0;
    state = 0;
}

static long long now(void) {
    struct timespec at;
    clock_gettime(CLOCK_MONOTONIC, &at);
    return at.tv_sec * 1000000ll + at.tv_nsec / 1000;
}

/* So many bytes of a file, by which it grows. They have their place on the disk, so that no store into them ends the program. NULL where there is none. */
static void *mapped(const char *path, uint64_t from, size_t bytes) {
    void *at = MAP_FAILED;
    int lacks;
    const int file = open(path, O_RDWR | O_CREAT | O_CLOEXEC, 0600);
    if (file < 0) return NULL;
    do lacks = posix_fallocate(file, (off_t)from, (off_t)bytes);
    while (lacks == EINTR);
    if (!lacks) at = mmap(NULL, bytes, PROT_READ | PROT_WRITE, MAP_SHARED, file, (off_t)from);
    if (at == MAP_FAILED && ftruncate(file, (off_t)from)) full = 1;
    close(file);
    return at == MAP_FAILED ? NULL : at;
}

static void add_piece(uint64_t number) {
    const size_t of_notes = sizeof(struct note[PIECE]), of_sites = sizeof(uint64_t[PIECE][FRAMES]);
    struct note *made = NULL;
    if (number < MOST_PIECES && !full && (!sites_file[0] || (sites[number] = mapped(sites_file, number * of_sites, of_sites))))
        made = mapped(notes_file, HEADER + number * of_notes, of_notes);
    if (made) pieces[number] = made;
    else full = 1;
}

/* Whether the piece of a note is there. Who makes its first note adds it, and others wait for that. */
static int has_piece(uint64_t at) {
    const uint64_t number = at / PIECE;
    if (at % PIECE == 0) add_piece(number);
    if (number >= MOST_PIECES) return 0;
    while (!pieces[number] && !full) sched_yield();
    return pieces[number] != NULL;
}

/* A line of a module: where it begins and ends, and its file, which is empty for the program itself. dprintf would take memory. */
static int write_line(int file, uint64_t base, uint64_t end, const char *name) {
    char line[1024];
    const int length = snprintf(line, sizeof line, "%llx %llx %s\n", (unsigned long long)base, (unsigned long long)end, name);
    return length >= (int)sizeof line || write(file, line, (size_t)length) == length ? 0 : 1;
}

static int write_module(struct dl_phdr_info *info, size_t bytes, void *to) {
    uint64_t end = 0;
    (void)bytes;
    for (int i = 0; i < info->dlpi_phnum; i++) {
        const uint64_t last = info->dlpi_phdr[i].p_vaddr + info->dlpi_phdr[i].p_memsz;
        if (info->dlpi_phdr[i].p_type == PT_LOAD && last > end) end = last;
    }
    return write_line(*(int *)to, info->dlpi_addr, info->dlpi_addr + end, info->dlpi_name);
}

/* At the first note, since a signal may end the process, and at its end, by when there may be more. */
__attribute__((destructor)) static void write_modules(void) {
    if (!sites_file[0]) return;
    int file = open(modules, O_WRONLY | O_CREAT | O_TRUNC | O_CLOEXEC, 0600);
    if (file < 0) return;
    char program[512] = "";
    if (readlink("/proc/self/exe", program, sizeof program - 1) > 0 && !write_line(file, 0, 0, program))
        dl_iterate_phdr(write_module, &file);
    close(file);
}

static void open_sites(void) {
    snprintf(sites_file, sizeof sites_file, "%s.sites", notes_file);
    snprintf(modules, sizeof modules, "%s.modules", notes_file);
    void *first[1];
    backtrace(first, 1); /* its first call takes memory, which isn't noted yet */
    write_modules();
}

static void note_frames(uint64_t *to) {
    void *frames[FRAMES];
    const int count = backtrace(frames, FRAMES);
    for (int i = 0; i < count; i++) to[i] = (uint64_t)(uintptr_t)frames[i];
}

static void open_notes(void) {
    char name[32] = "";
    const char *folder = getenv("RECORD_FOLDER");
    int file = open("/proc/self/comm", O_RDONLY | O_CLOEXEC);
    ssize_t length = file < 0 ? 0 : read(file, name, sizeof name - 1);
    if (file >= 0) close(file);
    for (ssize_t i = 0; i < length; i++)
        if (name[i] == '\n' || name[i] == '/') name[i] = 0;
    const int most = sizeof notes_file;
    if (!folder || snprintf(notes_file, sizeof notes_file, "%s/%lld.%d.%s", folder, now(), (int)getpid(), name) >= most) return;
    count = mapped(notes_file, 0, HEADER);
    if (count && getenv("RECORD_SITES")) open_sites();
}

static void note(enum kind kind, const void *address, size_t bytes) {
    int none = 0;
    const int kept = errno;
    if (atomic_compare_exchange_strong(&state, &none, 1)) {
        open_notes();
        state = count ? 2 : 3;
    }
    if (state == 2) {
        const uint64_t at = atomic_fetch_add(count, 1);
        if (!thread_number) thread_number = atomic_fetch_add(&threads, 1) + 1;
        if (has_piece(at)) {
            struct note *to = &pieces[at / PIECE][at % PIECE];
            to->address = (uint64_t)(uintptr_t)address;
            to->bytes = bytes;
            to->thread = thread_number;
            if (sites[at / PIECE] && kind != FREED && kind != MOVES) note_frames(sites[at / PIECE][at % PIECE]);
            to->kind = kind;
        }
    }
    errno = kept;
}

static void *given(void *block, size_t bytes, enum kind kind) {
    if (block) note(kind, block, bytes);
    return block;
}

void *malloc(size_t bytes) { return given(__libc_malloc(bytes), bytes, GIVEN); }
void *calloc(size_t count, size_t bytes) { return given(__libc_calloc(count, bytes), count * bytes, GIVEN); }
void *memalign(size_t alignment, size_t bytes) { return given(__libc_memalign(alignment, bytes), bytes, ALIGNED); }
void *aligned_alloc(size_t alignment, size_t bytes) { return memalign(alignment, bytes); }
void *valloc(size_t bytes) { return memalign((size_t)sysconf(_SC_PAGESIZE), bytes); }
void *pvalloc(size_t bytes) {
    const size_t page = (size_t)sysconf(_SC_PAGESIZE);
    return memalign(page, (bytes + page - 1) / page * page);
}

int posix_memalign(void **block, size_t alignment, size_t bytes) {
    if (alignment % sizeof(void *) || !alignment || alignment & (alignment - 1)) return EINVAL;
    void *got = memalign(alignment, bytes);
    if (!got) return ENOMEM;
    *block = got;
    return 0;
}

void free(void *block) {
    if (!block) return;
    note(FREED, block, 0);
    __libc_free(block);
}

void *realloc(void *block, size_t bytes) {
    if (!block) return malloc(bytes);
    if (!bytes) {
        free(block);
        return NULL;
    }
    note(MOVES, block, bytes);
    void *moved = __libc_realloc(block, bytes);
    note(MOVED, moved, bytes);
    return moved;
}

__attribute__((constructor)) static void start(void) { pthread_atfork(NULL, NULL, forget); }
