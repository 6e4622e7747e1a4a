/* Heaps as they stand, written as traces: the lines are calls that make the same heap out of a new one, which is compared block by
 * block. With a file, what it writes of a heap that some calls made goes there; it has to be dumped.trace.
 * DUMPED HEAPS [FILE] */
#include "peachanchor.h"

#include "tlsf_dump.h"

#include "chance.h"
#include <stdio.h>
#include <stdlib.h>
#include <string.h>

enum { MOST = 2000 };
static struct tlsf_heap heap = TLSF_CLOSED, copy = TLSF_CLOSED;
static struct tlsf_name names[MOST], made[TLSF_DUMP_LINES];
static uint32_t level, lines;

static void wrong(const char *what) {
    printf("turn %ld: %s\n", turn, what);
    exit(1);
}

/* Does what a line says on the copy. Each call has to be accepted. */
static bool does(void *user, const char *line, size_t bytes) {
    unsigned words, label, len;
    (void)user;
    lines++;
    if (line[bytes - 1] != '\n' || memchr(line, '\n', bytes) != line + bytes - 1) wrong("a line without its end");
    if (sscanf(line, "tlsf %*u 1 %u 1", &words) == 1) return tlsf_open(&copy, level, 2, words) == TLSF_OK;
    if (sscanf(line, "%*c 0 %u %u", &label, &len) < 1 || label >= TLSF_DUMP_LINES) wrong("no line of a trace");
    if (line[0] == 'a' && tlsf_allocate(&copy, len, &made[label])) wrong("an allocate that is refused");
    if (line[0] == 'r' && tlsf_resize(&copy, made[label], len)) wrong("a resize that is refused");
    if (line[0] == 'f' && tlsf_release(&copy, made[label])) wrong("a release that is refused");
    return true;
}

/* How many free blocks are free since an earlier tick. */
static uint32_t older(struct tlsf_heap *of, uint64_t since, uint32_t words) {
    struct tlsf_block_info it = {0, 0, 0, 0, 0};
    uint32_t count = 0;
    for (uint32_t at = 0; at < words; at += it.size) {
        if (tlsf_block_at(of, at, &it)) wrong("a walk that ends too early");
        count += it.is_live == 0 && it.mark < since;
    }
    return count;
}

static void compare(void) {
    struct tlsf_heap_report sums, others;
    struct tlsf_block_info it = {0, 0, 0, 0, 0}, other;
    uint32_t words;
    if (tlsf_report(&heap, &sums) || tlsf_report(&copy, &others)) wrong("no report");
    sums.age = others.age = 0;
    if (memcmp(&sums, &others, sizeof sums) != 0) wrong("another report");
    words = sums.live_words + sums.free_words;
    for (uint32_t at = 0; at < words; at += it.size) {
        if (tlsf_block_at(&heap, at, &it) || tlsf_block_at(&copy, at, &other)) wrong("a block is missing");
        if (it.size != other.size || it.is_live != other.is_live || it.len != other.len) wrong("another block");
        if (it.is_live == 0 && older(&heap, it.mark, words) != older(&copy, other.mark, words)) wrong("another order of free blocks");
    }
}

static bool says_no(void *user, const char *line, size_t bytes) {
    (void)line;
    (void)bytes;
    return --*(uint32_t *)user > 0;
}

/* What is refused, and that no line comes then. */
static void refuse(void) {
    uint32_t left = 2;
    struct tlsf_heap closed = TLSF_CLOSED;
    lines = 0;
    if (tlsf_dump_lines(&closed, 4, does, NULL) != TLSF_IS_CLOSED || tlsf_dump_lines(&heap, 6, does, NULL) != TLSF_BAD_LEVEL)
        wrong("what has to be refused is not");
    wants("lines of what is refused", lines, 0);
    if (tlsf_dump_lines(&heap, level, says_no, &left) != TLSF_NOT_WRITTEN || left != 0) wrong("lines go on");
}

/* A heap that has more blocks than a trace has lines. */
static void refuse_many(void) {
    if (tlsf_open(&heap, 4, 1, 1u << 18)) exit(1);
    while (tlsf_allocate_place(&heap, 0).answer == TLSF_OK) continue;
    lines = 0;
    if (tlsf_dump_lines(&heap, 4, does, NULL) != TLSF_BAD_SIZE) wrong("too many blocks are not refused");
    wants("lines of too many blocks", lines, 0);
    tlsf_close(&heap);
}

/* Calls by chance: allocates of many lengths, releases, and resizes that leave rests of a few words. */
static void call(uint32_t calls, uint32_t longest) {
    uint32_t live = 0;
    for (uint32_t k = 0; k < calls; k++) {
        const uint32_t which = live ? below(live) : 0, kind = below(8);
        if (kind < 4 && live < MOST) live += tlsf_allocate(&heap, below(below(longest) + 1), &names[live]) == TLSF_OK;
        else if (kind < 6 && live) {
            if (tlsf_release(&heap, names[which])) wrong("a release");
            names[which] = names[--live];
        } else if (live && tlsf_resize(&heap, names[which], below(longest)) == TLSF_STALE) wrong("a resize");
    }
}

int main(int argc, char **argv) {
    const long heaps = argc > 1 ? strtol(argv[1], NULL, 10) : 0;
    state = 88172645463325252u;
    for (turn = 0; turn < heaps; turn++) {
        const uint32_t words = 4 + below(turn % 8 ? 600 : 60000);
        uint32_t longest;
        level = turn % 2 ? 5 : 4;
        if (tlsf_open(&heap, level, 1, words)) return 1;
        longest = 8 * (1 + below(words / 4 + 1));
        call(below(400), longest);
        if (tlsf_dump_lines(&heap, level, does, NULL) != TLSF_OK) wrong("no trace");
        compare();
        refuse();
        tlsf_close(&copy);
        tlsf_close(&heap);
    }
    refuse_many();
    if (argc > 2) {
        FILE *to = fopen(argv[2], "w");
        state = 88172645463325252u;
        if (!to || tlsf_open(&heap, 4, 1, 1024)) return 1;
        call(300, 300);
        if (tlsf_dump(&heap, 4, to) || fclose(to)) return 1;
        tlsf_close(&heap);
    }
    printf("%ld heaps, and a new one like each\n", heaps);
    return 0;
}
