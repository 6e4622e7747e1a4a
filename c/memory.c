/* How C's library gets memory: from malloc, or from the caller while it opens something there; how it fills and copies; and numbers of
 * heaps. It is compiled by the toolchain's clang, which has no headers, so it declares what it calls. tests/library_test compiles it with
 * peachanchor.h in front, which agrees.
 *
 * The proved code takes memory only to open, and gives it back only to close. Each piece lies 8 bytes behind a multiple of 16,
 * so that payloads at even places are aligned to 16. A heap of more alignment has its words where its payloads are as aligned. The
 * word in front of a piece has the address that malloc gave, or 0. With
 * TLSF_NO_MALLOC there is no other memory than the caller's. A near heap's own fields, the last piece of a heap, lie in it. With
 * TLSF_NO_TLS there is no thread-local storage either, as without a system: then one thread at a time opens.
 *
 * Two threads that write one cache line take it from each other each time. So each piece of malloc's, and in the caller's memory
 * each piece of a lane or a queue, has its lines to itself. */
typedef __SIZE_TYPE__ size_t;
typedef __UINT32_TYPE__ uint32_t;
typedef __UINT64_TYPE__ uint64_t;
typedef __UINTPTR_TYPE__ uintptr_t;

struct tlsf_heap;
struct tlsf_near_heap;
struct tlsf_post_end;
struct tlsf_take_end;
struct tlsf_queue;
struct tlsf_offsets;
struct tlsf_pools;
struct tlsf_kind;
uint32_t tlsf_open(struct tlsf_heap *heap, uint32_t level, uint32_t number, uint32_t words);
uint32_t tlsf_lane_open(struct tlsf_post_end *post, struct tlsf_take_end *take, uint32_t capacity);
size_t tlsf_bytes(uint32_t level, uint32_t words);
uint32_t tlsf_open_in(struct tlsf_heap *heap, uint32_t level, uint32_t number, void *memory, size_t bytes);
uint32_t tlsf_open_near(struct tlsf_near_heap *near, uint32_t level, uint32_t number, uint32_t words);
size_t tlsf_near_bytes(uint32_t level, uint32_t words);
uint32_t tlsf_open_near_in(struct tlsf_near_heap *near, uint32_t level, uint32_t number, void *memory, size_t bytes);
size_t tlsf_lane_bytes(uint32_t capacity);
uint32_t tlsf_lane_open_in(struct tlsf_post_end *post, struct tlsf_take_end *take, uint32_t capacity, void *memory, size_t bytes);
uint32_t tlsf_queue_open(struct tlsf_queue *queue, uint32_t posters, uint32_t capacity);
size_t tlsf_queue_bytes(uint32_t posters, uint32_t capacity);
uint32_t tlsf_queue_open_in(struct tlsf_queue *queue, uint32_t posters, uint32_t capacity, void *memory, size_t bytes);
uint32_t tlsf_offsets_open(struct tlsf_offsets *offsets, uint32_t level, uint32_t number, uint32_t unit, uint32_t units);
size_t tlsf_offsets_bytes(uint32_t level, uint32_t units);
uint32_t tlsf_offsets_open_in(struct tlsf_offsets *offsets, uint32_t level, uint32_t number, uint32_t unit, uint32_t units, void *memory,
                              size_t bytes);
uint32_t tlsf_pools_open(struct tlsf_pools *pools, uint32_t level, uint32_t number, const struct tlsf_kind *rows, size_t n);
uint32_t tlsf_pools_words(uint32_t level, const struct tlsf_kind *rows, size_t n, uint64_t *words, uint32_t *heaps);
size_t tlsf_pools_bytes(uint32_t level, const struct tlsf_kind *rows, size_t n);
uint32_t tlsf_pools_open_in(struct tlsf_pools *pools, uint32_t level, uint32_t number, const struct tlsf_kind *rows, size_t n, void *memory,
                            size_t bytes);

/* What the proved code calls: functions of the toolchain's C library, rattle_alloc, _dealloc and _realloc, by names of this library's.
 * The proofs rest on their contracts, which its `Global` passes on:
 * - alloc is asked for less than 2^63 bytes, aligned to 1, 2, 4, 8 or 16. Where it answers 1, so many bytes lie at `at`, so
 *   aligned, which are the caller's alone until it gives them back. It may answer 0 to any request, and `at` is then some
 *   pointer that isn't null, to which nothing is written.
 * - dealloc is called once for each such piece, with its `at`.
 * - realloc is asked to make a piece one of `bytes`, whose first `kept` stay. It may move it; where it answers 0, all is as before.
 *   No vector does today: each has its room from the beginning.
 * The toolchain has them for x86-64 alone, over malloc and free: for 0 bytes it asks malloc for as many as the alignment has.
 * Those here are for each processor, since they are C. They refuse an alignment of 16 and what is longer than MOST_BYTES, and
 * what they give lies behind a mark, so only dealloc can give it back. A request for 0 bytes is one for the mark. C answers the
 * pair in two registers, as the proved code takes it: rax and rdx, or x0 and x1. */
struct tlsf_piece {
    uint64_t is_there;
    void *at;
};
#ifndef _WIN32
#define HIDDEN __attribute__((visibility("hidden")))
#define WEAK __attribute__((weak, visibility("hidden")))
#else /* which has neither */
#define HIDDEN
#define WEAK
#endif
/* On Windows C answers a pair in memory, and so these two are called there as on Linux. */
#if defined(_WIN32) && defined(__x86_64__)
#define PAIR __attribute__((sysv_abi))
#else
#define PAIR
#endif
HIDDEN PAIR struct tlsf_piece tlsf_memory_alloc(size_t bytes, size_t align);
HIDDEN void tlsf_memory_dealloc(void *at);
HIDDEN PAIR struct tlsf_piece tlsf_memory_realloc(void *at, size_t kept, size_t bytes, size_t align);

/* The same for what fills and copies payload. They are weak: a program with marks has its own (tlsf_marks.h). */
WEAK void *tlsf_memory_set(void *to, int byte, size_t n);
WEAK void *tlsf_memory_cpy(void *to, const void *from, size_t n);
WEAK void *tlsf_memory_move(void *to, const void *from, size_t n);
void *memset(void *to, int byte, size_t n);
void *memcpy(void *restrict to, const void *restrict from, size_t n);
void *memmove(void *to, const void *from, size_t n);

#if defined(TLSF_NO_TLS) && !defined(TLSF_NO_MALLOC)
#define TLSF_NO_MALLOC
#endif
#ifndef TLSF_NO_MALLOC
void *malloc(size_t bytes);
void free(void *at);
#endif

/* What pointers are aligned to where a heap doesn't say more: as C's malloc has it. */
#if __BIGGEST_ALIGNMENT__ == 8
#define OWN_ALIGN 8
#else
#define OWN_ALIGN 16
#endif

/* The bytes of the heads of level 5's lists, for which a heap has room; in a library of level 4 alone those of level 4. */
#ifdef TLSF_ONE_LEVEL
enum { HEADS = 4 * 273 };
#else
enum { HEADS = 4 * 641 };
#endif

#ifdef TLSF_NO_TLS
#define OF_THREAD
#else
#define OF_THREAD _Thread_local
#endif

enum {
    MARK = 8,           /* bytes in front of a piece */
    HEADER = 24,        /* and in front of a payload */
    MIXED = 28,         /* the byte of a handle for whether blocks may begin where a pointer isn't aligned, */
    ALIGN = 29,         /* and the one for what pointers are aligned to; 0 stands for OWN_ALIGN. */
    LEAST_ALIGN = 8,    /* It is a power of two from here */
    MOST_ALIGN = 64,    /* to here. */
    PIECE_ALIGN = 16,   /* What follows a mark lies 8 bytes behind a multiple of this, so pointers are aligned to it */
    HEAP = 196 + HEADS, /* bytes of a heap's own fields: beside its words and the bits that say where blocks begin */
    ARENA = HEAP,       /* and of an arena's */
    LINE = 64,          /* the handle of a near heap lies at a multiple of a cache line, */
    HANDLE = 32,        /* has so many bytes, */
    NEAR = 2816,        /* and begins so many, for it and for the heap's own fields */
    PIECES_FIRST = 2,   /* the words and the bits come in front of the own fields */
    LINES = 128,        /* two cache lines: a processor may fetch both where it needs one */
    END = 48,           /* bytes of each end of a lane or a queue */
    LANE = 384,         /* bytes of a lane beside its names and its ends */
    LANE_NAME = 24,
    QUEUE = 88,   /* bytes of a queue beside its places and its ends */
    PLACES = 384, /* of its places beside 8 for each */
    QUEUE_NAME = 32,
    POSTER = 16, /* of a poster's end in the list that it is first in */
    LEAST_WORDS = 4,
    MOST_NAMES = 1024,    /* of a lane or a queue, which has no more posters */
    MOST_BYTES = 1 << 28, /* no heap takes as many */
    NUMBERS = 8,          /* that pools take, and so are given at once */
    POOL = 228 + HEADS,   /* bytes of a heap of pools, with its table, and */
    PIECES = 80,          /* of what its four pieces have at most beside what lies in them: marks, and the ends of bits */
    ROW = 12,             /* and of each row */
    WORN = 2,             /* four numbers of enum tlsf_answer (tools/check answers) */
    BAD_SIZE = 5,
    NO_MEMORY = 6,
    BAD_MEMORY = 39
};

/* What is left of the memory in which this thread opens something now. */
static OF_THREAD unsigned char *lent, *lent_end;
static OF_THREAD size_t lent_step; /* each piece lies 8 bytes behind a multiple of this: PIECE_ALIGN or LINES */

/* The bytes from a multiple of LINES to the mark of the next piece of malloc's. */
static OF_THREAD size_t front;

/* The room beside its handle for the own fields of the heap that this thread opens now, and how many pieces come in front of them. */
static OF_THREAD unsigned char *near_room;
static OF_THREAD int pieces_first;

/* The bytes of a piece with its mark, up to a multiple of `step`. */
static size_t with_mark(size_t bytes, size_t step) { return (MARK + bytes + step - 1) / step * step; }

/* The bytes in front of the first multiple of `step`. */
static size_t skipped(const void *memory, size_t step) { return (size_t)(-(uintptr_t)memory % step); }

static void *lend(size_t bytes) {
    unsigned char *const at = lent + MARK;
    const size_t all = with_mark(bytes, lent_step);
    if (bytes > MOST_BYTES || MARK + bytes > (size_t)(lent_end - lent)) return 0;
    /* The last piece may end nearer to the end than the next one would begin. */
    lent = all < (size_t)(lent_end - lent) ? lent + all : lent_end;
    ((uint64_t *)(void *)at)[-1] = 0;
    return at;
}

/* Whatever the alignment of what malloc gives, all lines of the piece lie in it. */
static void *take(size_t bytes) {
#ifndef TLSF_NO_MALLOC
    unsigned char *const from = bytes > MOST_BYTES ? 0 : malloc(LINES - 1 + with_mark(front + bytes, LINES)), *at;
    if (!from) return 0;
    at = from + skipped(from, LINES) + front + MARK;
    front = 0;
    ((uint64_t *)(void *)at)[-1] = (uint64_t)(uintptr_t)from;
    return at;
#else
    (void)bytes;
    return 0;
#endif
}

static void *lend_near(size_t bytes) {
    if (bytes > NEAR - HANDLE - MARK) return 0;
    *(uint64_t *)(void *)near_room = 0;
    return near_room + MARK;
}

/* The proved code asks for words, so for no more alignment than theirs. */
PAIR struct tlsf_piece tlsf_memory_alloc(size_t bytes, size_t align) {
    static uint64_t nothing;
    void *const at = align > 8 ? 0 : near_room && pieces_first-- == 0 ? lend_near(bytes) : lent ? lend(bytes) : take(bytes);
    return (struct tlsf_piece){at != 0, at ? at : &nothing};
}

void tlsf_memory_dealloc(void *at) {
#ifndef TLSF_NO_MALLOC
    const uint64_t from = ((uint64_t *)at)[-1];
    if (from) free((void *)(uintptr_t)from);
#else
    (void)at;
#endif
}

PAIR struct tlsf_piece tlsf_memory_realloc(void *at, size_t kept, size_t bytes, size_t align) {
    const struct tlsf_piece piece = tlsf_memory_alloc(bytes, align);
    if (piece.is_there) {
        memcpy(piece.at, at, kept);
        tlsf_memory_dealloc(at);
    }
    return piece;
}

/* Where words may lie at any address: else there is a call. */
#if defined(__x86_64__) || defined(__ARM_FEATURE_UNALIGNED)
/* One word and two. Volatile, so that no compiler makes a call of memset of several. */
typedef volatile uint64_t word __attribute__((aligned(1), may_alias));
typedef volatile uint64_t two_words __attribute__((vector_size(16), aligned(1), may_alias));

/* Zeros from the front on and up to the end, `pairs` times two words each: they may overlap. */
static inline __attribute__((always_inline)) void zero_ends(unsigned char *at, size_t n, size_t pairs) {
    for (size_t i = 0; i < 16 * pairs; i += 16) {
        *(two_words *)(void *)(at + i) = (two_words){0, 0};
        *(two_words *)(void *)(at + n - 16 - i) = (two_words){0, 0};
    }
}

/* 8 to 512 zeros, and with them most payloads, are filled here: the call of memset reads two cache lines more, one of the
 * program's for its address and one of the C library's. Where all is in a cache memset is faster by some nanoseconds. */
void *tlsf_memory_set(void *to, int byte, size_t n) {
    unsigned char *const at = to;
    if (__builtin_expect(n > 512, 0) || __builtin_expect(byte != 0, 0)) return memset(to, byte, n);
    if (n > 256) zero_ends(at, n, 16);
    else if (n > 128) zero_ends(at, n, 8);
    else if (n > 64) zero_ends(at, n, 4);
    else if (n > 32) zero_ends(at, n, 2);
    else if (n > 16) zero_ends(at, n, 1);
    else if (n < 8) return memset(to, 0, n);
    else {
        *(word *)to = 0;
        *(word *)(void *)(at + n - 8) = 0;
    }
    return to;
}
#else
void *tlsf_memory_set(void *to, int byte, size_t n) { return memset(to, byte, n); }
#endif

void *tlsf_memory_cpy(void *to, const void *from, size_t n) { return memcpy(to, from, n); }

void *tlsf_memory_move(void *to, const void *from, size_t n) { return memmove(to, from, n); }

/* --- What is opened in memory of the caller's ---------------------------------------------------------------------- */

#ifdef TLSF_ONE_LEVEL
static size_t most_words(uint32_t level) { return level == 4 ? 1u << 20 : 0; }
#else
static size_t most_words(uint32_t level) { return level == 4 ? 1u << 20 : level == 5 ? 1u << 24 : 0; }
#endif

/* The bytes of the bits for so many words. */
static size_t bits_bytes(size_t words) { return (words + 63) / 64 * 8; }

/* The bytes of so many words, of the bits for them and of the own fields, from a multiple of 16 on. */
static size_t heap_bytes(size_t words) { return with_mark(8 * words, 16) + with_mark(bits_bytes(words), 16) + MARK + HEAP; }

/* The same of an arena's units. */
static size_t arena_bytes(size_t units) { return heap_bytes(units) - HEAP + ARENA; }

/* The same of a near heap, whose own fields lie elsewhere: the bits are the last piece. */
static size_t near_bytes(size_t words) { return with_mark(8 * words, 16) + MARK + bits_bytes(words); }

/* The bytes of a lane, from a multiple of LINES on, with all lines of its last piece. */
static size_t lane_bytes(size_t capacity) {
    return with_mark(LANE, LINES) + with_mark(LANE_NAME * capacity, LINES) + 2 * with_mark(END, LINES);
}

/* The same of a queue. Opening makes its places twice, and the posters' ends in a list before each gets a piece. */
static size_t queue_bytes(size_t posters, size_t capacity) {
    return with_mark(POSTER * posters, LINES) + 2 * with_mark(PLACES + 8 * capacity, LINES) + 2 * with_mark(QUEUE_NAME * capacity, LINES) +
           with_mark(QUEUE, LINES) + with_mark(8 * posters, LINES) + (posters + 1) * with_mark(END, LINES);
}

/* Whether so many bytes may lie there: not at null, nor past the end of the address space, as from mmap's MAP_FAILED. */
static int is_memory(const void *memory, size_t bytes) { return memory && bytes <= ~(uintptr_t)memory; }

/* Whether so many bytes lie in the memory, from the first multiple of `step` on. */
static int has(const void *memory, size_t bytes, size_t step, size_t wanted) {
    const size_t skip = skipped(memory, step);
    return is_memory(memory, bytes) && bytes >= skip && bytes - skip >= wanted;
}

/* Where there is no memory, nothing is lent, and the call up to end_in is for a size that is refused. */
static void begin_behind(void *memory, size_t bytes, size_t skip, size_t step) {
    static unsigned char nothing;
    const int is_there = is_memory(memory, bytes);
    lent = is_there ? (unsigned char *)memory + (skip < bytes ? skip : bytes) : &nothing;
    lent_end = is_there ? (unsigned char *)memory + bytes : &nothing;
    lent_step = step;
}

static void begin_in(void *memory, size_t bytes, size_t step) { begin_behind(memory, bytes, skipped(memory, step), step); }

static uint32_t end_in(uint32_t answer, const void *memory, size_t bytes) {
    lent = 0;
    return answer == BAD_SIZE && !is_memory(memory, bytes) ? BAD_MEMORY : answer;
}

static size_t bytes_for(uint32_t level, uint32_t words, size_t taken(size_t words)) {
    return words < LEAST_WORDS || words > most_words(level) ? 0 : 15 + taken(words);
}

size_t tlsf_bytes(uint32_t level, uint32_t words) { return bytes_for(level, words, heap_bytes); }

size_t tlsf_near_bytes(uint32_t level, uint32_t words) { return bytes_for(level, words, near_bytes); }

/* 8 bytes and a bit a word: the first guess is at most some words too high. */
static size_t words_in(size_t bytes, size_t most, size_t taken(size_t words)) {
    size_t words;
    if (bytes < taken(LEAST_WORDS)) return 0;
    if (bytes > MOST_BYTES) bytes = MOST_BYTES;
    words = (bytes - taken(0)) * 8 / 65 + 8;
    while (taken(words) > bytes) words--;
    return words < most ? words : most;
}

/* What the pointers of the heap that is opened here are aligned to, and PIECE_ALIGN at least; 0 where no heap's are. */
static size_t step_of(const struct tlsf_heap *heap) {
    const size_t align = ((const unsigned char *)heap)[ALIGN];
    if (align == 0) return PIECE_ALIGN;
    if (align < LEAST_ALIGN || align > MOST_ALIGN || (align & (align - 1)) != 0) return 0;
    return align < PIECE_ALIGN ? PIECE_ALIGN : align;
}

/* tlsf_open, which notes then whether pointers are aligned to something else than where a heap doesn't say more. A size that is refused
 * stands for an alignment that no heap has. */
static uint32_t open_noted(struct tlsf_heap *heap, uint32_t level, uint32_t number, size_t words) {
    unsigned char *const own = (unsigned char *)heap;
    const uint32_t answer = tlsf_open(heap, level, number, step_of(heap) == 0 ? 0 : (uint32_t)words);
    if (answer == 0 && own[ALIGN] != 0 && own[ALIGN] != OWN_ALIGN) own[MIXED] = 1;
    return answer;
}

/* With malloc's memory. A payload lies MARK and HEADER behind the words' mark. */
static uint32_t open_by_malloc(struct tlsf_heap *heap, uint32_t level, uint32_t number, uint32_t words) {
    const size_t step = step_of(heap);
    front = step == MOST_ALIGN ? MOST_ALIGN - MARK - HEADER : 0; /* of a multiple of less a payload lies a multiple behind it */
    const uint32_t answer = open_noted(heap, level, number, words);
    front = 0;
    return answer;
}

static uint32_t open_in(struct tlsf_heap *heap, uint32_t level, uint32_t number, void *memory, size_t bytes, size_t taken(size_t words)) {
    const size_t step = step_of(heap), skip = step == 0 ? 0 : skipped((const void *)((uintptr_t)memory + MARK + HEADER), step);
    const size_t words = is_memory(memory, bytes) && skip <= bytes ? words_in(bytes - skip, most_words(level), taken) : 0;
    begin_behind(memory, bytes, skip, PIECE_ALIGN);
    return end_in(open_noted(heap, level, number, words), memory, bytes);
}

uint32_t tlsf_open_in(struct tlsf_heap *heap, uint32_t level, uint32_t number, void *memory, size_t bytes) {
    return open_in(heap, level, number, memory, bytes, heap_bytes);
}

/* A near heap's handle, once it is noted where its own fields will lie: where tlsf_near finds it. */
static struct tlsf_heap *begin_near(struct tlsf_near_heap *near) {
    unsigned char *const handle = (unsigned char *)near + skipped(near, LINE);
    near_room = handle + HANDLE;
    pieces_first = PIECES_FIRST;
    return (struct tlsf_heap *)(void *)handle;
}

uint32_t tlsf_open_near(struct tlsf_near_heap *near, uint32_t level, uint32_t number, uint32_t words) {
    const uint32_t answer = open_by_malloc(begin_near(near), level, number, words);
    near_room = 0;
    return answer;
}

uint32_t tlsf_open_near_in(struct tlsf_near_heap *near, uint32_t level, uint32_t number, void *memory, size_t bytes) {
    const uint32_t answer = open_in(begin_near(near), level, number, memory, bytes, near_bytes);
    near_room = 0;
    return answer;
}

/* The same calls by the names that they have for the linker (peachanchor.h). */
uint32_t tlsf_open_32(struct tlsf_heap *heap, uint32_t level, uint32_t number, uint32_t words) {
    return open_by_malloc(heap, level, number, words);
}

uint32_t tlsf_open_in_32(struct tlsf_heap *heap, uint32_t level, uint32_t number, void *memory, size_t bytes) {
    return tlsf_open_in(heap, level, number, memory, bytes);
}

uint32_t tlsf_open_near_2880(struct tlsf_near_heap *near, uint32_t level, uint32_t number, uint32_t words) {
    return tlsf_open_near(near, level, number, words);
}

uint32_t tlsf_open_near_in_2880(struct tlsf_near_heap *near, uint32_t level, uint32_t number, void *memory, size_t bytes) {
    return tlsf_open_near_in(near, level, number, memory, bytes);
}

size_t tlsf_lane_bytes(uint32_t capacity) { return capacity == 0 || capacity > MOST_NAMES ? 0 : LINES - 1 + lane_bytes(capacity); }

uint32_t tlsf_lane_open_in(struct tlsf_post_end *post, struct tlsf_take_end *take_end, uint32_t capacity, void *memory, size_t bytes) {
    if (capacity <= MOST_NAMES && !has(memory, bytes, LINES, lane_bytes(capacity))) capacity = 0; /* which is refused in its turn */
    begin_in(memory, bytes, LINES);
    return end_in(tlsf_lane_open(post, take_end, capacity), memory, bytes);
}

size_t tlsf_queue_bytes(uint32_t posters, uint32_t capacity) {
    const int is_none = posters == 0 || posters > MOST_NAMES || capacity == 0 || capacity > MOST_NAMES;
    return is_none ? 0 : LINES - 1 + queue_bytes(posters, capacity);
}

uint32_t tlsf_queue_open_in(struct tlsf_queue *queue, uint32_t posters, uint32_t capacity, void *memory, size_t bytes) {
    if (capacity <= MOST_NAMES && posters <= MOST_NAMES && !has(memory, bytes, LINES, queue_bytes(posters, capacity))) capacity = 0;
    begin_in(memory, bytes, LINES);
    return end_in(tlsf_queue_open(queue, posters, capacity), memory, bytes);
}

size_t tlsf_offsets_bytes(uint32_t level, uint32_t units) {
    return units < LEAST_WORDS || units > most_words(level) ? 0 : 15 + arena_bytes(units);
}

uint32_t tlsf_offsets_open_in(struct tlsf_offsets *offsets, uint32_t level, uint32_t number, uint32_t unit, uint32_t units, void *memory,
                              size_t bytes) {
    if (units <= most_words(level) && !has(memory, bytes, 16, arena_bytes(units))) units = 0;
    begin_in(memory, bytes, 16);
    return end_in(tlsf_offsets_open(offsets, level, number, unit, units), memory, bytes);
}

/* The bytes of pools, from a multiple of 16 on: of their list, of the heaps in it with their words, and of their own fields. */
static size_t pools_bytes(size_t words, size_t heaps, size_t rows) {
    return with_mark(POOL * heaps, 16) + 8 * words + words / 64 * 8 + PIECES * heaps + ROW * rows + MARK + ARENA;
}

size_t tlsf_pools_bytes(uint32_t level, const struct tlsf_kind *rows, size_t n) {
    uint64_t words = 0;
    uint32_t heaps = 0;
    return tlsf_pools_words(level, rows, n, &words, &heaps) ? 0 : 15 + pools_bytes((size_t)words, heaps, n);
}

uint32_t tlsf_pools_open_in(struct tlsf_pools *pools, uint32_t level, uint32_t number, const struct tlsf_kind *rows, size_t n, void *memory,
                            size_t bytes) {
    uint32_t answer;
    begin_in(memory, bytes, 16);
    answer = tlsf_pools_open(pools, level, number, rows, n);
    return end_in(answer == NO_MEMORY ? BAD_SIZE : answer, memory, bytes);
}

/* --- Numbers of heaps ---------------------------------------------------------------------------------------------- */

/* Compilers for aarch64 make a call of libgcc's of what is atomic, unless they are told not to. */
#ifdef __aarch64__
#define ATOMICS_INLINE __attribute__((target("no-outline-atomics")))
#else
#define ATOMICS_INLINE
#endif

/* Each call counts, also a refused one: 64 bits last for centuries. So a call is one step, and needs no second try. */
ATOMICS_INLINE uint32_t tlsf_next_number(uint32_t *number) {
    static uint64_t calls;
    const uint64_t first = 1u << 31, next = first + NUMBERS * __atomic_fetch_add(&calls, 1, __ATOMIC_RELAXED);
    if (next >> 32) return WORN;
    *number = (uint32_t)next;
    return 0;
}
