/* A real-time heap over a region of 64-bit words (TLSF: two-level segregated fit). A block is known by its pointer, as malloc's
 * is, or by its name. A lane is a bounded FIFO: one thread puts names in, and one takes them out. Into a queue several threads put
 * them. An arena of offsets gives spans of memory that the processor never touches. Pools are heaps for a table of kinds of requests,
 * which never lack room.
 *
 * For C11 and later, and for C++17 and later (tlsf.hpp has more for C++). Link libpeachanchor.a and the C library. It is code for
 * baseline x86-64 (x86-64-v1), so it runs on every x86-64 processor under Linux; or, where it was built so, for aarch64. A release
 * has it for other processors and systems too, and for none, which isn't proved: see docs/C.md. No header of the C library's is
 * needed here.
 *
 * Each call returns. It does what its comment says, or it refuses with a number. The contracts in crates/tlsf_c, of the
 * repository that this header comes from, say exactly what is proved of it: for any handles, places and names, as long as the
 * caller keeps the rules below. Tested is what no contract names: what is C (TLSF_CALL) or inline here, memory of the caller's, where
 * payloads lie, memory that goes back, and that names arrive. The comment of a call of C's says which proved call it makes.
 *
 * Units: a word has 64 bits. `len`, `bytes`, `align`, and the `at` of tlsf_write and tlsf_read are bytes. A `len` that 32 bits
 *   don't hold is refused as any that no region has. Any other `at` is a place: the number of the word at which a block begins.
 *   Its payload begins three words behind. A capacity counts names.
 * Answers: TLSF_OK, which is 0, or a refusal of `enum tlsf_answer`. A refused call writes nothing through its pointers, except
 *   for the `damaged` of a check. It changes nothing but what tlsf_counts tells; only one that is made of several proved calls
 *   may take ticks besides. The compiler warns where an answer is ignored, except for calls that close, free, release or drain.
 * Time: only reports, tlsf_check, tlsf_pools_check, tlsf_reset, tlsf_release_all, tlsf_drain, tlsf_queue_drain, tlsf_put_all and
 *   tlsf_take_all, opening, tlsf_pools_words and tlsf_pools_bytes, closing a queue, what finds a part of pools, eight at most, or the row
 *   of a length, 64 at most, and what fills or copies payload run a loop. Only opening takes memory, and only closing gives it back. No
 *   call waits, locks or makes a system call, except as malloc and free do.
 *
 * WHAT THE CALLER OWES. Nothing checks these rules, and the proofs rest on them.
 *   1. A handle is closed before it is opened: all its bytes are zero, or it was set to TLSF_CLOSED. After that only calls
 *      touch it, one at a time, and nobody copies it. A near heap is a handle too, and lies still while it is open.
 *   2. A handle goes to another thread when that thread starts or ends, under a lock, or by a sequentially consistent atomic.
 *   3. A pointer to a handle, a name, a number or bytes is neither null nor misaligned, and what it points to is whole. The
 *      objects of one call don't overlap, and lie in no heap's region. A name may lie in the payload of any live block but that
 *      which the call is about.
 *   4. A payload is read and written in place only within its bytes, while its heap is open and its block live and not
 *      resized since: by whoever holds the block, in any thread, also during calls on the heap that aren't about this block. Who
 *      hands a block over orders that as for any pointer: by a lock, a lane, a queue, or an atomic of release and acquire.
 *   5. A signal handler makes no call that opens or closes, and it returns. Its other calls are for handles of the thread that
 *      it interrupts: on a handle in use they are refused as TLSF_IS_CLOSED. In the forked child of a process with threads
 *      no call is made; the parent goes on as before.
 *   6. Memory that a heap, a lane, a queue, an arena of offsets or pools are opened in is their own until it is closed. malloc and free
 *      belong to one allocator, however it aligns.
 *
 * A pointer has no serial, as a name has. So a second free of it, or a use after it was freed, is not seen once its place was
 * given again. Names see both. TLSF_CHECKED before this header looks at the headers that each call is about to follow
 * (tlsf_checked.h). TLSF_ASAN or TLSF_VALGRIND marks what isn't live, and TLSF_TSAN tells of what lanes and queues hand over
 * (tlsf_marks.h). TLSF_TRACE writes the program's calls as a trace (tlsf_trace.h).
 */
#ifndef PEACHANCHOR_H
#define PEACHANCHOR_H

/* The version of this header, as of the program and of the packages. */
#define TLSF_VERSION_MAJOR 0
#define TLSF_VERSION_MINOR 29
#define TLSF_VERSION_PATCH 0

#include <stdbool.h>
#include <stddef.h>
#include <stdint.h>

#ifdef __cplusplus
#define TLSF_NOEXCEPT noexcept
#define TLSF_NULL nullptr
#else
#define TLSF_NOEXCEPT
#define TLSF_NULL NULL
#endif

/* gcc, and clang also where it goes by Microsoft's names. */
#if defined(__GNUC__) || defined(__clang__)
#define TLSF_GNU
#endif

/* The linkage of calls that are C over proved ones. They are in the library, so other languages find them there, and a pointer to one
 * is the same in all files. With TLSF_INLINE before this header they are inline: each saves some 10 instructions in a program built
 * for speed. What marks, writes a trace or is checked has them inline, since it is of one file. TLSF_SHORT_CALL is inline wherever it is
 * called, and the library's where its address is taken. c/pointers.c defines TLSF_POINTERS, and so has the library's. */
#if defined(TLSF_ASAN) || defined(TLSF_VALGRIND) || defined(TLSF_TSAN)
#define TLSF_MARKED
#endif
#if !defined(TLSF_INLINE) && (defined(TLSF_MARKED) || defined(TLSF_TRACE) || defined(TLSF_CHECKED))
#define TLSF_INLINE
#endif
#if defined(TLSF_INLINE)
#define TLSF_CALL static inline
#define TLSF_SHORT_CALL static inline
#elif defined(TLSF_POINTERS)
#define TLSF_CALL
#define TLSF_SHORT_CALL
#else
#define TLSF_CALL extern
#ifdef TLSF_GNU
#define TLSF_SHORT_CALL extern inline __attribute__((gnu_inline))
#else
#define TLSF_SHORT_CALL static inline
#endif
#endif

/* What gcc and clang are told of a call that gives a block: which arguments say its bytes and its alignment. So they warn of a write past
 * it in plain sight. They aren't told what frees it. A free may be refused, and a program may ask another heap then, or `free` of the C
 * library's: gcc would warn of both. clang 14 ends by a signal at an alignment that is no power of two. */
#if defined(TLSF_GNU) && !defined(TLSF_INLINE) && !defined(TLSF_POINTERS)
#define TLSF_OF_BYTES(...) __attribute__((alloc_size(__VA_ARGS__)))
#else
#define TLSF_OF_BYTES(...)
#endif
#if defined(TLSF_GNU) && !defined(__clang__) && !defined(TLSF_INLINE) && !defined(TLSF_POINTERS)
#define TLSF_ALIGNED_BY(argument) __attribute__((alloc_align(argument)))
#else
#define TLSF_ALIGNED_BY(argument)
#endif

/* What a call has that is given or answers a struct by value, of two registers. C on Windows would hand such a struct over in
 * memory, so there these calls are called as on Linux. */
#if defined(_WIN32) && defined(__x86_64__) && defined(TLSF_GNU)
#define TLSF_BY_VALUE __attribute__((sysv_abi))
#elif defined(_WIN32) && !defined(TLSF_GNU)
#error "on Windows peachanchor.h is for gcc and clang"
#else
#define TLSF_BY_VALUE
#endif

/* An answer that a compiler warns of where it is ignored, unless it is cast to void. In C11 gcc heeds no cast where the answer has
 * an attribute of its own. So there it gets the one of C23, where that is known. */
#if defined(__cplusplus) || (defined(__STDC_VERSION__) && __STDC_VERSION__ >= 202311L)
#define TLSF_ANSWER [[nodiscard]]
#elif defined(TLSF_GNU) && !defined(__clang__) && defined(__has_c_attribute)
#if __has_c_attribute(nodiscard)
#define TLSF_ANSWER __extension__ [[nodiscard]]
#endif
#endif
#if !defined(TLSF_ANSWER) && defined(TLSF_GNU)
#define TLSF_ANSWER __attribute__((warn_unused_result))
#elif !defined(TLSF_ANSWER)
#define TLSF_ANSWER
#endif

/* What stands before each inline call. In C++ it has external linkage, so that a module may export it, and what is inline may call it;
 * and hidden, so that no plug-in exports it. Where a macro of the program's changes bodies from file to file, they are static: else
 * one file would get another's. */
#if defined(__cplusplus) && !defined(TLSF_TRACE) && !defined(TLSF_CHECKED) && !defined(TLSF_MARKED)
#if defined(TLSF_GNU) && !defined(_WIN32)
#define TLSF_BODY __attribute__((visibility("hidden"))) inline
#else
#define TLSF_BODY inline
#endif
#else
#define TLSF_BODY static inline
#endif

/* For the linker the calls that open a heap have the bytes of its handle in their names: what is compiled for handles of another size
 * isn't linked. c/memory.c has them by both names. On macOS the pragma would leave out the mark in front of a name. With TLSF_PREFIX
 * before this header, as `my_`, each call has that in front of its name for the linker, as my_tlsf_open_32. So another TLSF's calls can
 * be in one program. docs/C.md says how a library with these names is made. */
#if defined(TLSF_PREFIX)
#include "tlsf_prefix.h"
#elif defined(__PRAGMA_REDEFINE_EXTNAME) && !defined(__APPLE__) && !defined(TLSF_POINTERS)
#pragma redefine_extname tlsf_open tlsf_open_32
#pragma redefine_extname tlsf_open_in tlsf_open_in_32
#pragma redefine_extname tlsf_open_near tlsf_open_near_2880
#pragma redefine_extname tlsf_open_near_in tlsf_open_near_in_2880
#endif

#ifdef __cplusplus
extern "C" {
#endif

/* What a refusal of a trace says too has its number there, 1 to 18 (docs/TRACE.md). What C alone refuses has one from 32 on. */
enum tlsf_answer {
    TLSF_OK = 0,
    TLSF_NO_FIT = 1,       /* no free block is large enough, by the classes that are searched */
    TLSF_WORN = 2,         /* too few of 2^64 - 2 ticks are left: a move takes two, an aligned block up to four; or no number is */
    TLSF_FOREIGN = 3,      /* the name is of a heap with another number */
    TLSF_STALE = 4,        /* no live block has that name, that place or that pointer */
    TLSF_BAD_SIZE = 5,     /* a region has 4 to 2^20 words or units, at level 5 to 2^24; a lane or a queue 1 to 1,024 names, a queue
                            * as many posters; a unit isn't 0; an alignment is a power of two */
    TLSF_NO_MEMORY = 6,    /* malloc said no */
    TLSF_RANGE = 7,        /* the bytes go past the end of the payload */
    TLSF_FULL = 8,         /* the lane or the queue is full */
    TLSF_NO_ROOM = 10,     /* the block and a free one behind it are too small: it would have to move */
    TLSF_NOT_WRITTEN = 17, /* what gets the lines of tlsf_dump.h didn't take one */
    TLSF_IS_CLOSED = 32,   /* the handle isn't open, or the call that a signal handler interrupted is using it */
    TLSF_IN_USE = 33,      /* the handle is open already */
    TLSF_BAD_LEVEL = 34,   /* a level is 4 or 5 */
    TLSF_EMPTY = 35,       /* the lane or the queue is empty, or all posters' ends of a queue were given */
    TLSF_DAMAGED = 36,     /* a header doesn't agree with its neighbours or its size, as after a write past a payload */
    TLSF_BUSY = 37,        /* another thread is half through a step on the queue: the call may be made again */
    TLSF_ROW_FULL = 38,    /* as many blocks of that row of pools are held as may be */
    TLSF_BAD_MEMORY = 39,  /* memory of the caller's is null, or would go past the end of the address space, as from MAP_FAILED */
    TLSF_OTHER_KIND = 40   /* the handle holds something of another kind, as a post end's does that was cast to a take end's */
};

/* The bytes that pointers to blocks of a heap are aligned to, as C's malloc has it: 8 for ARM of 32 bits, else 16. A heap's `align` says
 * another number, 8, 16, 32 or 64, before it is opened: `struct tlsf_heap heap = TLSF_CLOSED; heap.align = 32;`. With 8 a block takes
 * fewer bytes, with 32 or 64 more, and each call by pointer takes longer than with TLSF_ALIGN. */
#if defined(__BIGGEST_ALIGNMENT__) && __BIGGEST_ALIGNMENT__ == 8
#define TLSF_ALIGN 8
#else
#define TLSF_ALIGN 16
#endif

/* What the proved calls read and write lies where it lies on 64 bits, on processors of 32 bits too: there a pointer in a handle has the
 * first half of 8 bytes, and what comes behind it begins at the next 8. */
#ifdef __cplusplus
#define TLSF_AT_8 alignas(8)
#else
#define TLSF_AT_8 _Alignas(8)
#endif

/* Handles. Their fields are the library's own, but for a heap's `align`. Calls that open or close write them, and of the others only the
 * one that notes the first block by name of an odd number of words. */
struct tlsf_heap {
    TLSF_AT_8 void *held;
    TLSF_AT_8 bool is_open;
    TLSF_AT_8 uint64_t *base;  /* the region's first word, 24 bytes in front of a multiple of 16, and of `align` */
    TLSF_AT_8 uint32_t number; /* of the names of its blocks */
    bool is_mixed;             /* blocks may begin where a pointer isn't aligned: tlsf_malloc and tlsf_realloc look at each */
    uint8_t align;             /* what pointers are aligned to, as the program says; 0 stands for TLSF_ALIGN */
};
/* A handle with the fields of the heap itself behind it, from the first multiple of 64 bytes on. tlsf_near finds the handle. */
struct tlsf_near_heap {
    unsigned char room[2880];
};
struct tlsf_post_end {
    TLSF_AT_8 void *held;
    TLSF_AT_8 bool is_open;
};
struct tlsf_take_end {
    TLSF_AT_8 void *held;
    TLSF_AT_8 bool is_open;
};
struct tlsf_queue {
    TLSF_AT_8 void *held;
    TLSF_AT_8 bool is_open;
};
struct tlsf_poster {
    TLSF_AT_8 void *held;
    TLSF_AT_8 bool is_open;
};
struct tlsf_offsets {
    TLSF_AT_8 void *held;
    TLSF_AT_8 bool is_open;
};
struct tlsf_pools {
    TLSF_AT_8 void *held;
    TLSF_AT_8 bool is_open;
};

/* Handles that aren't open, to begin with and to assign: `struct tlsf_heap heap = TLSF_CLOSED;`, `heap = TLSF_CLOSED;`. A
 * handle whose bytes are all zero is closed too, as a static one is. An open handle is closed by its call, never by these. */
#ifdef __cplusplus
/* clang-format off */
#define TLSF_CLOSED { nullptr, false, nullptr, 0, false, 0 }
#define TLSF_POST_CLOSED { nullptr, false }
/* clang-format on */
#define TLSF_TAKE_CLOSED TLSF_POST_CLOSED
#define TLSF_QUEUE_CLOSED TLSF_POST_CLOSED
#define TLSF_POSTER_CLOSED TLSF_POST_CLOSED
#define TLSF_OFFSETS_CLOSED TLSF_POST_CLOSED
#define TLSF_POOLS_CLOSED TLSF_POST_CLOSED
#elif defined(__GNUC__) && !defined(__clang__) && __GNUC__ >= 8
/* With -pedantic gcc warns where a compound literal begins a static object, and clang where another object does. */
static const struct tlsf_heap tlsf_closed_heap __attribute__((unused)) = {NULL, false, NULL, 0, false, 0};
static const struct tlsf_post_end tlsf_closed_post_end __attribute__((unused)) = {NULL, false};
static const struct tlsf_take_end tlsf_closed_take_end __attribute__((unused)) = {NULL, false};
static const struct tlsf_queue tlsf_closed_queue __attribute__((unused)) = {NULL, false};
static const struct tlsf_poster tlsf_closed_poster __attribute__((unused)) = {NULL, false};
static const struct tlsf_offsets tlsf_closed_offsets __attribute__((unused)) = {NULL, false};
static const struct tlsf_pools tlsf_closed_pools __attribute__((unused)) = {NULL, false};
#define TLSF_CLOSED tlsf_closed_heap
#define TLSF_POST_CLOSED tlsf_closed_post_end
#define TLSF_TAKE_CLOSED tlsf_closed_take_end
#define TLSF_QUEUE_CLOSED tlsf_closed_queue
#define TLSF_POSTER_CLOSED tlsf_closed_poster
#define TLSF_OFFSETS_CLOSED tlsf_closed_offsets
#define TLSF_POOLS_CLOSED tlsf_closed_pools
#else
#define TLSF_CLOSED ((struct tlsf_heap){NULL, false, NULL, 0, false, 0})
#define TLSF_POST_CLOSED ((struct tlsf_post_end){NULL, false})
#define TLSF_TAKE_CLOSED ((struct tlsf_take_end){NULL, false})
#define TLSF_QUEUE_CLOSED ((struct tlsf_queue){NULL, false})
#define TLSF_POSTER_CLOSED ((struct tlsf_poster){NULL, false})
#define TLSF_OFFSETS_CLOSED ((struct tlsf_offsets){NULL, false})
#define TLSF_POOLS_CLOSED ((struct tlsf_pools){NULL, false})
#endif

/* The same of a near heap, to begin with alone. */
/* clang-format off */
#define TLSF_NEAR_CLOSED { { 0 } }
/* clang-format on */

/* The name of a block: the heap's number, the block's place in words from the start of the region, and the tick at which
 * it became live. A plain value, which may be copied, kept and sent. Each call on a heap refuses a name that was forged or
 * that outlived its block, as long as no two heaps have or had one number. A lane takes any name. */
struct tlsf_name {
    uint32_t heap;
    uint32_t at;
    uint64_t serial;
};

/* Where a block came to lie, and its serial; or a refusal, and then both are 0. */
struct tlsf_placed {
    uint32_t at;
    uint32_t answer;
    uint64_t serial;
};

/* What a heap holds, and how well it serves. Where nothing is free, `largest`, `grant`, `fragmentation` and `age` are 0.
 * A heap ticks when it is opened, and at each allocate, release and resize that it accepts. `age` counts the ticks from the one
 * on at which the block that is free longest became free. Right after a release it is 1, where nothing else is free. What an
 * allocate or a resize leaves of a free block counts as free from that tick on. */
struct tlsf_heap_report {
    uint32_t live_blocks;
    uint32_t live_words; /* with their headers, three words each */
    uint32_t live_bytes; /* of payload; of a block by pointer all that it may use */
    uint32_t free_blocks;
    uint32_t free_words;
    uint32_t largest;       /* the words of the greatest free block */
    uint32_t grant;         /* the greatest `len` for which tlsf_allocate isn't TLSF_NO_FIT now; tlsf_malloc rounds up */
    uint32_t fragmentation; /* thousandths of the free words that lie outside the greatest free block */
    uint32_t waste;         /* 8 * live_words - live_bytes */
    uint64_t age;           /* ticks from the one on at which the block that is free longest became free */
};

/* What a heap counts as it goes, since it was opened. */
struct tlsf_heap_counts {
    uint32_t words;           /* in live blocks now, with their headers */
    uint32_t most_words;      /* the most there ever were; while a block moves, both its old and its new one count */
    uint32_t refused;         /* proved calls that were TLSF_NO_FIT, 2^32 - 1 at most; by pointer none above 2^27 bytes or aligned above */
    uint32_t longest_refused; /* the longest `len` of these, by pointer rounded up as tlsf_rounded does */
};

/* A block. The next one begins at `at + size`. */
struct tlsf_block_info {
    uint32_t at;
    uint32_t size; /* words, with its header */
    uint32_t is_live;
    uint32_t len;  /* bytes of payload; 0 where it is free */
    uint64_t mark; /* the serial of a live block; the tick since which it is free */
};

/* Bytes of the memory that an arena of offsets cuts up: where they begin, how many they are, and the name that they go back by. */
struct tlsf_span {
    struct tlsf_name name;
    uint64_t offset; /* bytes of the memory in front of them; a multiple of the unit */
    uint64_t size;   /* whole units, four at least, and at most three more than were asked for */
};

/* What an arena of offsets holds and what it has left, in bytes. */
struct tlsf_offsets_usage {
    uint32_t spans;
    uint64_t held;
    uint64_t free;
    uint64_t largest; /* the most that are free in one piece */
};

/* A row of a table of kinds: how many blocks of that kind are held at once, and how many bytes each has, at most. */
struct tlsf_kind {
    uint32_t most;
    uint64_t len;
};

/* --- A heap ------------------------------------------------------------------------------------------------------- */

/* Opens a heap of `words` words in a closed handle. Level 4 takes 4 to 2^20 words. Level 5 takes 4 to 2^24, in finer classes.
 * `number` goes into the names of its blocks: give each heap of a program another one, also when it is opened again, as
 * tlsf_next_number does. Memory comes from malloc.
 * Refused, in this order: TLSF_IN_USE, TLSF_BAD_LEVEL, TLSF_BAD_SIZE also for an `align` that no heap has, TLSF_NO_MEMORY. */
TLSF_ANSWER uint32_t tlsf_open(struct tlsf_heap *heap, uint32_t level, uint32_t number, uint32_t words) TLSF_NOEXCEPT;

/* Opens a heap in `bytes` bytes of the caller's from `memory` on, at any alignment. It has as many words as fit: at level 4 2^20
 * at most, at level 5 2^24. The call is tlsf_open, which gets this memory in place of malloc's. What it doesn't need of it stays as
 * it is, and all is the caller's again once the heap is closed. Two threads may open at once.
 * Refused, in this order: TLSF_IN_USE, TLSF_BAD_LEVEL, TLSF_BAD_MEMORY, TLSF_BAD_SIZE where fewer than 4 words fit. */
TLSF_ANSWER uint32_t tlsf_open_in(struct tlsf_heap *heap, uint32_t level, uint32_t number, void *memory, size_t bytes) TLSF_NOEXCEPT;

/* The fewest bytes in which tlsf_open_in finds room for so many words, at any alignment of `memory`. It is 0 where no heap of
 * that level has so many. A heap whose `align` is 32 or 64 takes 16 or 48 bytes more. */
size_t tlsf_bytes(uint32_t level, uint32_t words) TLSF_NOEXCEPT;

/* A number for a heap, an arena or pools, which no other of this process has or had, goes to `number`: 2^31 first, and then each
 * time 8 more, since pools take up to eight. So those that a program chooses itself are below 2^31. Any thread calls it at any time.
 * Each copy of this library counts for itself, as where two plug-ins have one each.
 * Refused: TLSF_WORN, once 2^28 calls were made. */
TLSF_ANSWER uint32_t tlsf_next_number(uint32_t *number) TLSF_NOEXCEPT;

/* As tlsf_open, tlsf_open_in and tlsf_bytes, of a near heap: its own fields lie behind its handle. All other calls, tlsf_close too,
 * take `tlsf_near(heap)`, the handle, whose first three cache lines are then fetched at once. So a call whose data is in no cache
 * waits once less. An open one is never moved, since its fields stay where it was opened; it may lie at any address. */
TLSF_ANSWER uint32_t tlsf_open_near(struct tlsf_near_heap *heap, uint32_t level, uint32_t number, uint32_t words) TLSF_NOEXCEPT;
TLSF_ANSWER uint32_t tlsf_open_near_in(struct tlsf_near_heap *heap, uint32_t level, uint32_t number, void *memory,
                                       size_t bytes) TLSF_NOEXCEPT;
size_t tlsf_near_bytes(uint32_t level, uint32_t words) TLSF_NOEXCEPT;
TLSF_SHORT_CALL struct tlsf_heap *tlsf_near(struct tlsf_near_heap *heap) TLSF_NOEXCEPT;

/* Closes a heap, and gives its memory back, with all blocks. Refused: TLSF_IS_CLOSED. */
uint32_t tlsf_close(struct tlsf_heap *heap) TLSF_NOEXCEPT;

/* Takes all blocks back in one step, as at the end of a frame: the heap is one free block, and stays open. No name of before is live
 * again, and no pointer of before may be used or freed. It writes a word for each 64 of the region and some 700 more, however many
 * blocks there are, and no payload. Of tlsf_counts the words in use become 0, and all else stays. A name that is still in a lane or a
 * queue is then stale for whoever takes it.
 * Refused: TLSF_IS_CLOSED, TLSF_WORN. */
uint32_t tlsf_reset(struct tlsf_heap *heap) TLSF_NOEXCEPT;

/* The words of a heap that never answers TLSF_NO_FIT to a program that allocates, resizes in place and releases in any order. It
 * has at most `blocks` blocks at once, of at most `len` bytes each; the block that is asked for counts too. The words go to
 * `words`. For 0 blocks they are 4, the least heap, whatever `len` is. For blocks by pointer give it tlsf_rounded(len), if none is
 * aligned above TLSF_ALIGN and, with 16 of it, no block by name has an odd number of words.
 * Refused: TLSF_BAD_LEVEL; TLSF_BAD_SIZE where no region of that level is so large. */
TLSF_ANSWER uint32_t tlsf_words(uint32_t level, uint32_t blocks, size_t len, uint32_t *words) TLSF_NOEXCEPT;

/* The same for blocks that any calls ask for, by name and by pointer, aligned to at most `align` bytes: tlsf_words of tlsf_rounded(len)
 * and 32 + `align` bytes. An `align` below 16 counts as 16. Refused as tlsf_words, also where no region has such an alignment. */
TLSF_ANSWER TLSF_CALL uint32_t tlsf_words_for(uint32_t level, uint32_t blocks, size_t len, size_t align, uint32_t *words) TLSF_NOEXCEPT;

/* --- Blocks by pointer ---------------------------------------------------------------------------------------------
 *
 * Each is C, and one proved call of a block by place, unless it says more. `p` is any pointer: it is followed only where a
 * live block's payload begins there. So a wild pointer is refused, and so is one into a block, or to another heap's. */

/* Frees what the calls below gave: TLSF_OK, and TLSF_STALE where no live block's payload begins at `p`. A null pointer is
 * TLSF_OK, with no call. Refused besides: TLSF_IS_CLOSED, TLSF_WORN. */
TLSF_CALL uint32_t tlsf_free(struct tlsf_heap *heap, void *p) TLSF_NOEXCEPT;

/* `len` bytes, aligned to the heap's `align`, whatever lies there; null where it is refused. The call is tlsf_allocate_payload. With a
 * TLSF_ALIGN of 8, or where `align` isn't TLSF_ALIGN, it is tlsf_allocate_place. In a mixed heap what comes may be misaligned: then it goes
 * back, and a last call aligns. A heap is mixed where `align` isn't TLSF_ALIGN. Where that is 16, one is mixed too once a block by name has
 * had an odd number of words. */
TLSF_ANSWER TLSF_CALL void *tlsf_malloc(struct tlsf_heap *heap, size_t len) TLSF_NOEXCEPT TLSF_OF_BYTES(2);

/* As tlsf_malloc of `count * each` bytes, all zero. The call is tlsf_allocate, which fills. In a mixed heap tlsf_malloc's calls give the
 * bytes, which are filled here. */
TLSF_ANSWER TLSF_CALL void *tlsf_calloc(struct tlsf_heap *heap, size_t count, size_t each) TLSF_NOEXCEPT TLSF_OF_BYTES(2, 3);

/* Gives what `p` points to `len` bytes, aligned as tlsf_malloc's: what it had stays up to the smaller length. Where it moves, the old
 * block is freed. A null pointer is tlsf_malloc's; with a `len` of 0 it is freed, and the answer is null, also where the free is
 * refused. Where it is refused the answer is null, and the block is as before. A block by name that stays where it is keeps its
 * alignment.
 * In a mixed heap whose `align` isn't 8, tlsf_block_at shows first whether this block stays. If not, tlsf_malloc's calls give a block, it
 * is copied here, and tlsf_free's call frees the old one. */
TLSF_ANSWER TLSF_CALL void *tlsf_realloc(struct tlsf_heap *heap, void *p, size_t len) TLSF_NOEXCEPT TLSF_OF_BYTES(3);

/* As tlsf_malloc, aligned to `align` too: any power of two, else it is refused. Above the heap's own a free block is looked for that has
 * 32 + `align` bytes more than tlsf_malloc takes. They are free again at once, but for 24 at most. */
TLSF_ANSWER TLSF_CALL void *tlsf_aligned_alloc(struct tlsf_heap *heap, size_t align, size_t len) TLSF_NOEXCEPT TLSF_OF_BYTES(3)
    TLSF_ALIGNED_BY(2);

/* As tlsf_realloc, aligned to `align` too: any power of two, else it is refused. A block that is so aligned stays where there is room for
 * it. Any other one moves, also where it gets shorter. A null pointer is tlsf_aligned_alloc's.
 * For an aligned block, up to the heap's own alignment, the call is that of tlsf_realloc. Else tlsf_block_at shows first whether this block
 * stays. If not, tlsf_aligned_alloc's call gives a block, it is copied here, and tlsf_free's call frees the old one. */
TLSF_ANSWER TLSF_CALL void *tlsf_aligned_realloc(struct tlsf_heap *heap, void *p, size_t align, size_t len) TLSF_NOEXCEPT TLSF_OF_BYTES(4)
    TLSF_ALIGNED_BY(3);

/* The bytes from `p` on that the program may use: at least as many as it asked for. It is 0 where no live block's payload begins
 * there. Compilers know of those that were asked for alone: with _FORTIFY_SOURCE, use more by the pointer that tlsf_realloc gives. */
TLSF_CALL size_t tlsf_usable_size(struct tlsf_heap *heap, const void *p) TLSF_NOEXCEPT;

/* The same from a pointer alone, with no call: it reads the word in front of `p` (docs/LAYOUT.md). So `p` is null, and the answer 0, or
 * where a live block's payload begins, by pointer or by name, of any heap: nothing else is refused, and nothing looks. Whoever holds the
 * block may ask, in any thread: only calls about this block write that word. */
TLSF_SHORT_CALL size_t tlsf_block_size(const void *p) TLSF_NOEXCEPT;

/* The name of the block whose payload begins at `p` goes to `name`. It is for a lane, or to see later whether it is still that
 * block.
 * Refused: TLSF_IS_CLOSED, TLSF_STALE. */
TLSF_ANSWER TLSF_CALL uint32_t tlsf_name_at(struct tlsf_heap *heap, const void *p, struct tlsf_name *name) TLSF_NOEXCEPT;

/* Allocates a block of at least `len` bytes by name and by pointer: its name goes to `name`, the address of its payload to
 * `payload`. It is aligned to `align`, any power of two, and as tlsf_malloc's. It is all zero, or with TLSF_UNFILLED in `flags` what lies
 * there.
 * The call is that of tlsf_aligned_alloc; it is filled here.
 * Refused: TLSF_BAD_SIZE for any other `align`; TLSF_IS_CLOSED, TLSF_NO_FIT, TLSF_WORN. */
TLSF_ANSWER TLSF_CALL uint32_t tlsf_allocate_at(struct tlsf_heap *heap, size_t len, size_t align, uint32_t flags, struct tlsf_name *name,
                                                void **payload) TLSF_NOEXCEPT;
#define TLSF_UNFILLED 1u

/* --- Blocks by name ------------------------------------------------------------------------------------------------
 *
 * A name goes by value. A call that makes a block of an odd number of words notes that in the handle, for tlsf_realloc. By a pointer
 * to it each call does the same. Before a release gcc and clang fetch the block's header, which is a macro's work. */

/* Allocates a block of `len` bytes, all zero. Its name goes to `name`.
 * Refused: TLSF_IS_CLOSED, TLSF_NO_FIT, TLSF_WORN. */
TLSF_ANSWER uint32_t tlsf_allocate(struct tlsf_heap *heap, size_t len, struct tlsf_name *name) TLSF_NOEXCEPT;

/* Releases a block. It is free at once, and one with its free neighbours.
 * Refused: TLSF_IS_CLOSED, TLSF_FOREIGN, TLSF_STALE, TLSF_WORN. */
TLSF_BY_VALUE uint32_t tlsf_release(struct tlsf_heap *heap, struct tlsf_name name) TLSF_NOEXCEPT;

/* Releases the blocks of `n` names in their order. A name that the heap refuses is passed over. The handle is looked at once, so this
 * takes less time than `n` calls. Refused: TLSF_IS_CLOSED. */
uint32_t tlsf_release_all(struct tlsf_heap *heap, const struct tlsf_name *names, size_t n) TLSF_NOEXCEPT;

/* Gives a block `len` bytes where it stands. Its name stays, and so do its bytes up to the smaller length. New bytes are zero.
 * Refused: TLSF_IS_CLOSED, TLSF_FOREIGN, TLSF_STALE, TLSF_NO_ROOM, TLSF_WORN. */
TLSF_ANSWER TLSF_BY_VALUE uint32_t tlsf_resize(struct tlsf_heap *heap, struct tlsf_name name, size_t len) TLSF_NOEXCEPT;

/* Gives a block `len` bytes: where it stands if there is room, otherwise in a new block, whose name goes to `name`. Its bytes
 * stay up to the smaller length, and new ones are zero. Where it moves the old block is released.
 * Refused as tlsf_resize, but with TLSF_NO_FIT where it would have to move and there is no room; the block is then as before. */
TLSF_ANSWER uint32_t tlsf_reallocate(struct tlsf_heap *heap, struct tlsf_name *name, size_t len) TLSF_NOEXCEPT;

/* Copies `n` bytes into a block's payload, from its byte `at` on. Where `n` is 0 `bytes` may point anywhere, and isn't null.
 * Refused: TLSF_IS_CLOSED, TLSF_FOREIGN, TLSF_STALE, TLSF_RANGE. */
TLSF_ANSWER TLSF_BY_VALUE uint32_t tlsf_write(struct tlsf_heap *heap, struct tlsf_name name, uint32_t at, const uint8_t *bytes,
                                              size_t n) TLSF_NOEXCEPT;

/* Copies `n` bytes out of a block's payload, from its byte `at` on. Where `n` is 0 `out` may point anywhere, and isn't null.
 * Refused: TLSF_IS_CLOSED, TLSF_FOREIGN, TLSF_STALE, TLSF_RANGE. */
TLSF_ANSWER TLSF_BY_VALUE uint32_t tlsf_read(struct tlsf_heap *heap, struct tlsf_name name, uint32_t at, uint8_t *out,
                                             size_t n) TLSF_NOEXCEPT;

/* Where a block's payload lies. The address of the region's first word goes to `base`, the payload's bytes go to `len`. The
 * payload begins at word `name.at + 3` of the region, and is aligned to 8 bytes. All blocks of a heap have the same `base`.
 * Refused: TLSF_IS_CLOSED, TLSF_FOREIGN, TLSF_STALE. */
TLSF_ANSWER TLSF_BY_VALUE uint32_t tlsf_locate(struct tlsf_heap *heap, struct tlsf_name name, uint64_t **base, uint32_t *len) TLSF_NOEXCEPT;

/* A block's payload, to be read and written in place, or null where tlsf_locate, the call that is made, is refused. Its bytes go to
 * `*len`, unless `len` is null. The pointer holds until the block is released or resized, or the heap is closed. */
TLSF_CALL TLSF_BY_VALUE void *tlsf_payload(struct tlsf_heap *heap, struct tlsf_name name, uint32_t *len) TLSF_NOEXCEPT;

/* From a name to a pointer in another thread, where no call of the heap may be made. tlsf_base is the address of the first word of the
 * region, or null where the heap isn't open: the owner asks it once, and hands it over. tlsf_at is where the payload of a name
 * begins, by such a `base`; null where that is null. It reads nothing, and refuses no name: give it that of a block which you hold. */
TLSF_SHORT_CALL uint64_t *tlsf_base(const struct tlsf_heap *heap) TLSF_NOEXCEPT;
TLSF_SHORT_CALL TLSF_BY_VALUE void *tlsf_at(uint64_t *base, struct tlsf_name name) TLSF_NOEXCEPT;

/* --- A lane: names go from the thread that has its post end to the one that has its take end --------------------- */

/* Opens a lane for at most `capacity` names, 1 to 1,024, in two closed handles, its ends. The ends may be in two threads, and
 * be called at the same time. Memory comes from malloc.
 * Refused, in this order: TLSF_IN_USE, TLSF_BAD_SIZE, TLSF_NO_MEMORY. */
TLSF_ANSWER uint32_t tlsf_lane_open(struct tlsf_post_end *post, struct tlsf_take_end *take, uint32_t capacity) TLSF_NOEXCEPT;

/* As tlsf_lane_open, in memory of the caller's as tlsf_open_in. It is the caller's again once both ends are closed.
 * Refused, in this order: TLSF_IN_USE, TLSF_BAD_MEMORY, TLSF_BAD_SIZE, also where `bytes` are too few. */
TLSF_ANSWER uint32_t tlsf_lane_open_in(struct tlsf_post_end *post, struct tlsf_take_end *take, uint32_t capacity, void *memory,
                                       size_t bytes) TLSF_NOEXCEPT;

/* The fewest bytes in which tlsf_lane_open_in finds room, at whatever alignment `memory` has; 0 where there is no such lane. */
size_t tlsf_lane_bytes(uint32_t capacity) TLSF_NOEXCEPT;

/* Each closes one end. The other end stays open, and the memory of the lane goes with the last. Names that were put before the post
 * end was closed can still be taken. Names that wait when the take end is closed are gone, and their blocks stay live: so close the
 * post end first, and drain. Where a heap is closed its names may still come. Another heap refuses them as TLSF_FOREIGN, unless it
 * has the same number: so give a heap that is opened again another number, or drain before. Refused: TLSF_IS_CLOSED. */
uint32_t tlsf_post_close(struct tlsf_post_end *post) TLSF_NOEXCEPT;
uint32_t tlsf_take_close(struct tlsf_take_end *take) TLSF_NOEXCEPT;

/* Puts a name behind the others. The thread with the take end may take it at once. Refused: TLSF_IS_CLOSED, TLSF_FULL. */
TLSF_ANSWER TLSF_BY_VALUE uint32_t tlsf_put(struct tlsf_post_end *post, struct tlsf_name name) TLSF_NOEXCEPT;

/* Puts as many of `n` names behind the others as there are slots, the first of them first. How many went goes to `went`. The
 * take end is shown up to 32 at once, so many together cost both threads less than each alone. Refused: TLSF_IS_CLOSED. */
TLSF_ANSWER uint32_t tlsf_put_all(struct tlsf_post_end *post, const struct tlsf_name *names, size_t n, size_t *went) TLSF_NOEXCEPT;

/* Takes the first name, which goes to `name`. Who took it holds its block, and finds the payload by tlsf_at; the owner of the heap by
 * tlsf_payload. Refused: TLSF_IS_CLOSED, TLSF_EMPTY. */
TLSF_ANSWER uint32_t tlsf_take(struct tlsf_take_end *take, struct tlsf_name *name) TLSF_NOEXCEPT;

/* Takes the first names, in their order: those that are there, `n` at most, and 32 at most. They go to the first places of `names`,
 * and how many came to `came`. The post end is shown their slots at once, so many together cost both threads less than each alone.
 * Refused: TLSF_IS_CLOSED; TLSF_EMPTY where `n` isn't 0 and none came. */
TLSF_ANSWER uint32_t tlsf_take_all(struct tlsf_take_end *take, struct tlsf_name *names, size_t n, size_t *came) TLSF_NOEXCEPT;

/* Takes at most `most` names out of a lane, and releases their blocks. How many names came goes to `came`. A name whose release
 * is refused counts too. It is tlsf_take_all and tlsf_release_all, inline, so that headers are fetched before; and where blocks lie
 * near each other the archive's drain, which a pointer to this function calls. Refused: TLSF_IS_CLOSED, where either handle isn't open. */
uint32_t tlsf_drain(struct tlsf_heap *heap, struct tlsf_take_end *take, uint32_t most, uint32_t *came) TLSF_NOEXCEPT;

/* --- A queue: names go from several threads to the one that owns their heap ---------------------------------------
 *
 * A queue has an owner's end and posters' ends, each a handle of its own: so each thread that posts opens one. A call makes one
 * attempt and never waits. Where another thread is half through a step on the queue it is TLSF_BUSY, and may be made again. A
 * thread that stands still in the midst of a post holds up the names behind its own. A lane knows no such thing. Take lanes where
 * bounds count, and a queue where there are many posters, or where it isn't known which of them will post.
 *
 *     struct tlsf_queue queue = TLSF_QUEUE_CLOSED;
 *     struct tlsf_poster poster = TLSF_POSTER_CLOSED;                               // goes to another thread
 *     if (tlsf_queue_open(&queue, 3, 64) || tlsf_poster_open(&queue, &poster)) return 1;
 *     while ((answer = tlsf_queue_post(&poster, name)) == TLSF_BUSY) sched_yield(); // in that thread
 *     tlsf_queue_drain(&heap, &queue, 16, &came);                                    // in the owner's
 */

/* Opens a queue for `posters` posters, 1 to 1,024, and at most `capacity` names, 1 to 1,024, in a closed handle, the owner's end.
 * Memory comes from malloc.
 * Refused, in this order: TLSF_IN_USE, TLSF_BAD_SIZE, TLSF_NO_MEMORY. */
TLSF_ANSWER uint32_t tlsf_queue_open(struct tlsf_queue *queue, uint32_t posters, uint32_t capacity) TLSF_NOEXCEPT;

/* As tlsf_queue_open, in memory of the caller's as tlsf_open_in. It is the caller's again once the queue and all posters' ends that
 * were opened are closed. tlsf_poster_open takes none.
 * Refused, in this order: TLSF_IN_USE, TLSF_BAD_MEMORY, TLSF_BAD_SIZE, also where `bytes` are too few. */
TLSF_ANSWER uint32_t tlsf_queue_open_in(struct tlsf_queue *queue, uint32_t posters, uint32_t capacity, void *memory,
                                        size_t bytes) TLSF_NOEXCEPT;

/* The fewest bytes in which tlsf_queue_open_in finds room, at whatever alignment `memory` has; 0 where there is no such queue. */
size_t tlsf_queue_bytes(uint32_t posters, uint32_t capacity) TLSF_NOEXCEPT;

/* Opens the next of the queue's posters' ends in a closed handle. It is called where the owner's end may be, and the handle may
 * then go to another thread. An end that was given isn't given again: threads that come and go hand one on.
 * Refused, in this order: TLSF_IS_CLOSED where the queue is, TLSF_IN_USE, TLSF_EMPTY where all were given. */
TLSF_ANSWER uint32_t tlsf_poster_open(struct tlsf_queue *queue, struct tlsf_poster *poster) TLSF_NOEXCEPT;

/* Each closes one end. The others stay open, and the memory of the queue goes with the last. Names that wait go as a lane's do.
 * Refused: TLSF_IS_CLOSED. */
uint32_t tlsf_queue_close(struct tlsf_queue *queue) TLSF_NOEXCEPT;
uint32_t tlsf_poster_close(struct tlsf_poster *poster) TLSF_NOEXCEPT;

/* Puts a name behind those of this poster, and of the others in some order.
 * Refused: TLSF_IS_CLOSED; TLSF_FULL where the queue was full at one moment of the call; TLSF_BUSY. */
TLSF_ANSWER TLSF_BY_VALUE uint32_t tlsf_queue_post(struct tlsf_poster *poster, struct tlsf_name name) TLSF_NOEXCEPT;

/* Takes the first name, which goes to `name`.
 * Refused: TLSF_IS_CLOSED; TLSF_EMPTY where the queue was empty at one moment of the call; TLSF_BUSY where it is half put. */
TLSF_ANSWER uint32_t tlsf_queue_take(struct tlsf_queue *queue, struct tlsf_name *name) TLSF_NOEXCEPT;

/* Takes at most `most` names out of a queue, up to the first that it doesn't get, and releases their blocks. How many names came
 * goes to `came`. A name whose release is refused counts too. It is tlsf_queue_take and tlsf_release_all, inline; a pointer to
 * this function calls the archive's drain. Refused: TLSF_IS_CLOSED, where either handle isn't open. */
uint32_t tlsf_queue_drain(struct tlsf_heap *heap, struct tlsf_queue *queue, uint32_t most, uint32_t *came) TLSF_NOEXCEPT;

/* --- Offsets: memory that the processor never touches, as a graphics card's ------------------------------------------
 *
 * An arena says where spans lie in memory that is cut into units of so many bytes, and never touches it: so the memory may be
 * anywhere, and so may its device. A heap with a word for each unit decides. Two spans that are held have no byte in common, which
 * is proved. Each call is bounded as the heap's, however large a span is.
 *
 *     struct tlsf_offsets offsets = TLSF_OFFSETS_CLOSED;
 *     struct tlsf_span vertices;
 *     if (tlsf_offsets_open(&offsets, 4, 1, 65536, 4096)) return 1;                  // 256 MiB in units of 64 KiB
 *     if (tlsf_offsets_allocate(&offsets, 3000000, &vertices)) return 1;             // bind the buffer at vertices.offset
 *     tlsf_offsets_release(&offsets, vertices.name);
 */

/* Opens an arena over `units` units of `unit` bytes each, in a closed handle: 4 to 2^20 units at level 4, to 2^24 at level 5.
 * `unit` is any number but 0: the alignment that each span has. `number` goes into names, as a heap's. Memory for the words comes
 * from malloc, 8 bytes a unit and some.
 * Refused, in this order: TLSF_IN_USE, TLSF_BAD_LEVEL, TLSF_BAD_SIZE, TLSF_NO_MEMORY. */
TLSF_ANSWER uint32_t tlsf_offsets_open(struct tlsf_offsets *offsets, uint32_t level, uint32_t number, uint32_t unit,
                                       uint32_t units) TLSF_NOEXCEPT;

/* As tlsf_offsets_open, whose words lie in memory of the caller's as tlsf_open_in has it. It is the caller's again once the arena is
 * closed.
 * Refused, in this order: TLSF_IN_USE, TLSF_BAD_LEVEL, TLSF_BAD_MEMORY, TLSF_BAD_SIZE, also where `bytes` are too few. */
TLSF_ANSWER uint32_t tlsf_offsets_open_in(struct tlsf_offsets *offsets, uint32_t level, uint32_t number, uint32_t unit, uint32_t units,
                                          void *memory, size_t bytes) TLSF_NOEXCEPT;

/* The fewest bytes in which tlsf_offsets_open_in finds room for so many units, at any alignment of `memory`. It is 0 where no arena
 * of that level has so many. */
size_t tlsf_offsets_bytes(uint32_t level, uint32_t units) TLSF_NOEXCEPT;

/* Closes an arena, with all spans. Refused: TLSF_IS_CLOSED. */
uint32_t tlsf_offsets_close(struct tlsf_offsets *offsets) TLSF_NOEXCEPT;

/* Gives a span of at least `bytes` bytes. It goes to `span`.
 * Refused: TLSF_IS_CLOSED, TLSF_NO_FIT, TLSF_WORN. */
TLSF_ANSWER uint32_t tlsf_offsets_allocate(struct tlsf_offsets *offsets, uint64_t bytes, struct tlsf_span *span) TLSF_NOEXCEPT;

/* Takes the span of that name back. The device has to be done with it: nothing here knows.
 * Refused: TLSF_IS_CLOSED, TLSF_FOREIGN, TLSF_STALE, TLSF_WORN. */
TLSF_BY_VALUE uint32_t tlsf_offsets_release(struct tlsf_offsets *offsets, struct tlsf_name name) TLSF_NOEXCEPT;

/* Makes the span of that name hold `bytes` bytes where it lies. Its offset and name stay, and `span` is what it is then.
 * Refused: TLSF_IS_CLOSED, TLSF_FOREIGN, TLSF_STALE, TLSF_NO_ROOM, TLSF_WORN. */
TLSF_ANSWER uint32_t tlsf_offsets_resize(struct tlsf_offsets *offsets, struct tlsf_span *span, uint64_t bytes) TLSF_NOEXCEPT;

/* Sums over all spans, so the time grows with their number. Refused: TLSF_IS_CLOSED. */
TLSF_ANSWER uint32_t tlsf_offsets_report(struct tlsf_offsets *offsets, struct tlsf_offsets_usage *usage) TLSF_NOEXCEPT;

/* --- Pools: heaps that never lack room for the requests of a table ------------------------------------------------
 *
 * A table says how many blocks of each kind are held at once, at most, as `tlsf replay --kinds` tells of a recording. It is cut
 * into at most eight parts, so that heaps for them have the fewest words together. A request goes to the heap of the first part that
 * has a row long enough, and counts for that row. While no row has more blocks than it may, each request is served, in whatever
 * order they come. A block is known by its name or by its pointer, as a heap's.
 *
 *     static const struct tlsf_kind rows[] = {{2000, 72}, {1, 65544}};
 *     struct tlsf_pools pools = TLSF_POOLS_CLOSED;
 *     if (tlsf_pools_open(&pools, 4, 1, rows, 2)) return 1;                          // heaps of 24,000 and 8,704 words
 *     if (tlsf_pools_allocate(&pools, 64, &name)) return 1;
 *     node = tlsf_pools_malloc(&pools, sizeof *node);
 */

/* Opens pools for `n` rows, 64 at most, in a closed handle. The rows rise in `len`, so that requests count for each. Their heaps are of
 * that level, and have the numbers from `number` on, for eight heaps at most: give each heap of a program another one. Memory comes from
 * malloc. Of no rows pools open that have no heap: no row is long enough for a request, and there is no part.
 * Refused, in this order: TLSF_IN_USE, TLSF_BAD_LEVEL, TLSF_BAD_SIZE for more rows, where a row is no longer than the one before it,
 * where numbers would go past 2^32, or where no region is large enough, TLSF_NO_MEMORY. */
TLSF_ANSWER uint32_t tlsf_pools_open(struct tlsf_pools *pools, uint32_t level, uint32_t number, const struct tlsf_kind *rows,
                                     size_t n) TLSF_NOEXCEPT;

/* As tlsf_pools_open, in memory of the caller's as tlsf_open_in has it. It is the caller's again once the pools are closed.
 * Refused, in this order: TLSF_IN_USE, TLSF_BAD_LEVEL, TLSF_BAD_MEMORY, TLSF_BAD_SIZE as tlsf_pools_open, and where `bytes` are too few. */
TLSF_ANSWER uint32_t tlsf_pools_open_in(struct tlsf_pools *pools, uint32_t level, uint32_t number, const struct tlsf_kind *rows, size_t n,
                                        void *memory, size_t bytes) TLSF_NOEXCEPT;

/* Bytes in which tlsf_pools_open_in finds room for these rows, at any alignment of `memory`: at most 16, and 60 a heap, more than it takes.
 * It is 0 where tlsf_pools_words is refused. It tries each way to cut the table: write the answer down. */
size_t tlsf_pools_bytes(uint32_t level, const struct tlsf_kind *rows, size_t n) TLSF_NOEXCEPT;

/* The words of all heaps together that tlsf_pools_open would open go to `words`, and how many heaps these are to `heaps`.
 * Refused: TLSF_BAD_LEVEL, TLSF_BAD_SIZE as tlsf_pools_open. */
TLSF_ANSWER uint32_t tlsf_pools_words(uint32_t level, const struct tlsf_kind *rows, size_t n, uint64_t *words,
                                      uint32_t *heaps) TLSF_NOEXCEPT;

/* Closes all heaps, with all blocks. Refused: TLSF_IS_CLOSED. */
uint32_t tlsf_pools_close(struct tlsf_pools *pools) TLSF_NOEXCEPT;

/* Allocates a block of `len` bytes, all zero. Its name goes to `name`.
 * Refused: TLSF_IS_CLOSED; TLSF_BAD_SIZE where no row is so long; TLSF_ROW_FULL where as many blocks of the row are held as may be;
 * TLSF_WORN. It is never TLSF_NO_FIT. */
TLSF_ANSWER uint32_t tlsf_pools_allocate(struct tlsf_pools *pools, size_t len, struct tlsf_name *name) TLSF_NOEXCEPT;

/* As tlsf_release, tlsf_write and tlsf_read, on the heap that the name names. */
TLSF_BY_VALUE uint32_t tlsf_pools_release(struct tlsf_pools *pools, struct tlsf_name name) TLSF_NOEXCEPT;
TLSF_ANSWER TLSF_BY_VALUE uint32_t tlsf_pools_write(struct tlsf_pools *pools, struct tlsf_name name, uint32_t at, const uint8_t *bytes,
                                                    size_t n) TLSF_NOEXCEPT;
TLSF_ANSWER TLSF_BY_VALUE uint32_t tlsf_pools_read(struct tlsf_pools *pools, struct tlsf_name name, uint32_t at, uint8_t *out,
                                                   size_t n) TLSF_NOEXCEPT;

/* Sums over all blocks of the heap of one part, by its number in the order of the table: a walk from 0 on meets all.
 * Refused: TLSF_IS_CLOSED, TLSF_STALE where there is no such part. */
TLSF_ANSWER uint32_t tlsf_pools_report(struct tlsf_pools *pools, uint32_t part, struct tlsf_heap_report *report) TLSF_NOEXCEPT;

/* How many blocks are held of a row goes to `held`, and how many may be to `most`: a walk over rows from 0 on meets all. It takes the same
 * time however many are held. Refused: TLSF_IS_CLOSED, TLSF_STALE where the table has no such row. */
TLSF_ANSWER uint32_t tlsf_pools_counts(struct tlsf_pools *pools, uint32_t row, uint32_t *held, uint32_t *most) TLSF_NOEXCEPT;

/* As tlsf_check, of the heap of a part. Refused: TLSF_IS_CLOSED, TLSF_STALE, also where there is no such part, TLSF_DAMAGED. */
TLSF_ANSWER uint32_t tlsf_pools_check(struct tlsf_pools *pools, uint32_t part, uint32_t from, uint32_t most, uint32_t *next,
                                      uint32_t *damaged) TLSF_NOEXCEPT;

/* Blocks of pools by pointer. Each call is C over several proved ones: nine at most find the part of `p`, and two that of a new block.
 * `p` is any pointer: it is followed only where a live block's payload begins there. What tlsf_pools_malloc gives has all bytes of the
 * row for which it counts.
 * Each block is aligned to TLSF_ALIGN where each row's `len` is a tlsf_rounded one, as those of a recording by pointer are, and to 8
 * otherwise.
 *
 * tlsf_pools_free frees a block: TLSF_OK, and TLSF_STALE where no live block's payload begins at `p`. A null pointer is TLSF_OK, with no
 * call. Refused besides: TLSF_IS_CLOSED, TLSF_WORN. */
TLSF_CALL uint32_t tlsf_pools_free(struct tlsf_pools *pools, void *p) TLSF_NOEXCEPT;

/* At least `len` bytes, all zero; null where it is refused, as tlsf_pools_allocate is. */
TLSF_ANSWER TLSF_CALL void *tlsf_pools_malloc(struct tlsf_pools *pools, size_t len) TLSF_NOEXCEPT TLSF_OF_BYTES(2);

/* Gives what `p` points to at least `len` bytes. Where these count for the row that the block counts for, and it has so many, it stays as
 * it is. Otherwise what it had is copied to a block that tlsf_pools_malloc gives, up to the smaller length, bytes after that are zero, and
 * the old block is freed: until then both count. A null pointer is tlsf_pools_malloc's; with a `len` of 0 it is freed, and the answer is
 * null. Where it is refused the answer is null, and the block is as before. */
TLSF_ANSWER TLSF_CALL void *tlsf_pools_realloc(struct tlsf_pools *pools, void *p, size_t len) TLSF_NOEXCEPT TLSF_OF_BYTES(3);

/* The bytes from `p` on that the program may use: 0 where no live block's payload begins there. */
TLSF_CALL size_t tlsf_pools_usable_size(struct tlsf_pools *pools, const void *p) TLSF_NOEXCEPT;

/* The name of the block whose payload begins at `p` goes to `name`. Refused: TLSF_IS_CLOSED, TLSF_STALE. */
TLSF_ANSWER TLSF_CALL uint32_t tlsf_pools_name_at(struct tlsf_pools *pools, const void *p, struct tlsf_name *name) TLSF_NOEXCEPT;

/* Of what these are made. tlsf_pools_part tells of the heap of one part: the address of its region's first word goes to `base`, and the
 * number that the names of its blocks have to `number`. Refused: TLSF_IS_CLOSED, TLSF_STALE where there is no such part. */
TLSF_ANSWER uint32_t tlsf_pools_part(struct tlsf_pools *pools, uint32_t part, uint64_t **base, uint32_t *number) TLSF_NOEXCEPT;

/* As tlsf_place, of the heap of a part. Refused: TLSF_IS_CLOSED, TLSF_STALE, also where there is no such part. */
TLSF_ANSWER uint32_t tlsf_pools_place(struct tlsf_pools *pools, uint32_t part, uint32_t at, struct tlsf_name *name,
                                      uint32_t *len) TLSF_NOEXCEPT;

/* The bytes of the row for which a request of `len` bytes counts go to `row_len`: the first that is long enough.
 * Refused: TLSF_IS_CLOSED, TLSF_BAD_SIZE where no row is. */
TLSF_ANSWER uint32_t tlsf_pools_row(struct tlsf_pools *pools, size_t len, uint32_t *row_len) TLSF_NOEXCEPT;

/* --- What a heap holds --------------------------------------------------------------------------------------------- */

/* What the heap has counted, in constant time. Refused: TLSF_IS_CLOSED. */
TLSF_ANSWER uint32_t tlsf_counts(struct tlsf_heap *heap, struct tlsf_heap_counts *counts) TLSF_NOEXCEPT;

/* Sums over all blocks, so the time grows with their number. Refused: TLSF_IS_CLOSED. */
TLSF_ANSWER uint32_t tlsf_report(struct tlsf_heap *heap, struct tlsf_heap_report *report) TLSF_NOEXCEPT;

/* The block, live or free, that begins at `at`. The first one of a heap begins at 0.
 * Refused: TLSF_IS_CLOSED, TLSF_STALE where none begins there, as behind the last one. */
TLSF_ANSWER uint32_t tlsf_block_at(struct tlsf_heap *heap, uint32_t at, struct tlsf_block_info *block) TLSF_NOEXCEPT;

/* Looks whether headers agree, as they do unless something was written past a payload: sizes, neighbours, lengths and links of
 * `most` blocks at most, from the one at `from` on. What leaves these as they are isn't seen, nor is a changed serial. It follows
 * nothing that it hasn't looked at. The place to go on from goes to `next`: it is 0 behind the last block.
 * Refused: TLSF_IS_CLOSED; TLSF_STALE where no block begins at `from`; TLSF_DAMAGED, and then the place of the first block whose
 * header doesn't agree goes to `damaged`: most often that block is the one behind the payload that was overrun. */
TLSF_ANSWER uint32_t tlsf_check(struct tlsf_heap *heap, uint32_t from, uint32_t most, uint32_t *next, uint32_t *damaged) TLSF_NOEXCEPT;

/* The same of the headers and links that one call is about to follow, in 48 touches at most. tlsf_check_around looks at the block at
 * `at` and both its neighbours, as a release or a resize of it follows them. tlsf_check_request looks at the free block that a request
 * for `len` bytes would take, and at its neighbours: that it is free and long enough, too.
 * Refused: TLSF_IS_CLOSED; TLSF_STALE where no block begins at `at`; TLSF_NO_FIT where no block fits; TLSF_DAMAGED, and then the
 * damaged block's place goes to `damaged`. */
TLSF_ANSWER uint32_t tlsf_check_around(struct tlsf_heap *heap, uint32_t at, uint32_t *damaged) TLSF_NOEXCEPT;
TLSF_ANSWER uint32_t tlsf_check_request(struct tlsf_heap *heap, size_t len, uint32_t *damaged) TLSF_NOEXCEPT;

/* What an answer says, in a few words. */
TLSF_CALL const char *tlsf_text_of(uint32_t answer) TLSF_NOEXCEPT;

/* --- Blocks by place: what the calls by pointer are made of ---------------------------------------------------------
 *
 * Give them a `len` of tlsf_rounded. While each call does, each payload is aligned to TLSF_ALIGN: with 16 each block begins at an even
 * place. With another `len` tlsf_realloc may answer a pointer that is aligned to 8 alone. */

/* `len` rounded up to words, and with a TLSF_ALIGN of 16 to an odd number of them: with a header they are even. For the longest it is
 * SIZE_MAX, which never fits. */
TLSF_SHORT_CALL size_t tlsf_rounded(size_t len) TLSF_NOEXCEPT;

/* The place of the block whose payload begins at `p`. A misaligned pointer becomes a place that no region has. One outside becomes
 * a place where no block begins, and is refused with one touch at most. */
TLSF_SHORT_CALL uint32_t tlsf_place_of(const struct tlsf_heap *heap, const void *p) TLSF_NOEXCEPT;

/* Allocates a block of `len` bytes, whatever lies there: none is filled. Its name is the heap's `number`, `at` and `serial`.
 * Refused: TLSF_IS_CLOSED, TLSF_NO_FIT, TLSF_WORN. */
TLSF_ANSWER TLSF_BY_VALUE struct tlsf_placed tlsf_allocate_place(struct tlsf_heap *heap, size_t len) TLSF_NOEXCEPT;

/* tlsf_allocate_place of `len` rounded up to an odd number of words. Answers how many bytes behind `base` its payload begins, or 0 where it
 * is refused. So it is for a `len` above 2^27. */
TLSF_ANSWER size_t tlsf_allocate_payload(struct tlsf_heap *heap, size_t len) TLSF_NOEXCEPT;

/* As tlsf_allocate_place, at a place where `at + 3 + skew` is a multiple of `step`. Both are words; a `step` of 0 counts as 1.
 * Refused: TLSF_IS_CLOSED, TLSF_WORN where fewer than four ticks are left, TLSF_NO_FIT. */
TLSF_ANSWER TLSF_BY_VALUE struct tlsf_placed tlsf_allocate_aligned(struct tlsf_heap *heap, size_t len, uint32_t step,
                                                                   uint32_t skew) TLSF_NOEXCEPT;

/* Releases the live block that begins at `at`. Refused: TLSF_IS_CLOSED, TLSF_STALE where none does, TLSF_WORN. */
uint32_t tlsf_release_place(struct tlsf_heap *heap, uint32_t at) TLSF_NOEXCEPT;

/* Gives the live block that begins at `at` `len` bytes, where it stands or in a new block. Its place goes to `new_at`. Its
 * bytes stay up to the smaller length, and none is filled. Where it moves the old block is released.
 * Refused: TLSF_IS_CLOSED, TLSF_STALE, TLSF_NO_FIT, TLSF_WORN; the block is then as before. */
TLSF_ANSWER uint32_t tlsf_resize_place(struct tlsf_heap *heap, uint32_t at, size_t len, uint32_t *new_at) TLSF_NOEXCEPT;

/* The name of the live block that begins at `at` goes to `name`, and its payload's bytes go to `len`.
 * Refused: TLSF_IS_CLOSED, TLSF_STALE. */
TLSF_ANSWER uint32_t tlsf_place(struct tlsf_heap *heap, uint32_t at, struct tlsf_name *name, uint32_t *len) TLSF_NOEXCEPT;

#ifdef __cplusplus
}
#endif

#include "tlsf_inline.h"
#endif
