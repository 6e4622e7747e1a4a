/* An arena of offsets: each refusal, and then calls by chance beside a plain table of the spans that are held. None overlaps another,
 * each lies in the memory, and a span that is given back is refused from then on. OFFSETS [CALLS] [LEVEL] [SEED] */
#include "peachanchor.h"
#include "chance.h"

#include <string.h>

enum { MOST = 200 };

static void refusals(void) {
    struct tlsf_offsets offsets = TLSF_OFFSETS_CLOSED;
    struct tlsf_span span, kept;
    struct tlsf_offsets_usage usage = {9, 9, 9, 9};
    memset(&span, 7, sizeof span);
    kept = span;
    wants("allocate where closed", tlsf_offsets_allocate(&offsets, 1, &span), TLSF_IS_CLOSED);
    wants("release where closed", tlsf_offsets_release(&offsets, span.name), TLSF_IS_CLOSED);
    wants("resize where closed", tlsf_offsets_resize(&offsets, &span, 1), TLSF_IS_CLOSED);
    wants("report where closed", tlsf_offsets_report(&offsets, &usage), TLSF_IS_CLOSED);
    wants("close where closed", tlsf_offsets_close(&offsets), TLSF_IS_CLOSED);
    wants("level 3", tlsf_offsets_open(&offsets, 3, 1, 256, 64), TLSF_BAD_LEVEL);
    wants("level 6", tlsf_offsets_open(&offsets, 6, 1, 0, 0), TLSF_BAD_LEVEL);
    wants("no unit", tlsf_offsets_open(&offsets, 4, 1, 0, 64), TLSF_BAD_SIZE);
    wants("three units", tlsf_offsets_open(&offsets, 4, 1, 256, 3), TLSF_BAD_SIZE);
    wants("too many units", tlsf_offsets_open(&offsets, 4, 1, 256, (1 << 20) + 1), TLSF_BAD_SIZE);
#ifndef TLSF_LEVEL_4
    wants("too many of level 5", tlsf_offsets_open(&offsets, 5, 1, 256, (1 << 24) + 1), TLSF_BAD_SIZE);
#endif
    wants("open", tlsf_offsets_open(&offsets, 4, 1, 256, 64), TLSF_OK);
    wants("open twice", tlsf_offsets_open(&offsets, 9, 1, 0, 0), TLSF_IN_USE);
    wants("more than there is", tlsf_offsets_allocate(&offsets, 64 * 256 + 1, &span), TLSF_NO_FIT);
    wants("the most", tlsf_offsets_allocate(&offsets, UINT64_MAX, &span), TLSF_NO_FIT);
    wants("a name of nobody's", tlsf_offsets_release(&offsets, span.name), TLSF_FOREIGN);
    wants("nothing was written", (size_t)memcmp(&span, &kept, sizeof span), 0);
    wants("nothing was asked for", tlsf_offsets_allocate(&offsets, 0, &span), TLSF_OK);
    wants("it has four units", span.size, 4 * 256);
    wants("all the others", tlsf_offsets_allocate(&offsets, 60 * 256, &kept), TLSF_OK);
    wants("where they begin", kept.offset, 4 * 256);
    wants("no room to grow", tlsf_offsets_resize(&offsets, &span, 5 * 256), TLSF_NO_ROOM);
    wants("the span is as it was", span.size, 4 * 256);
    wants("report", tlsf_offsets_report(&offsets, &usage), TLSF_OK);
    wants("spans", usage.spans, 2);
    wants("held", usage.held, 64 * 256);
    wants("free", usage.free + usage.largest, 0);
    wants("release", tlsf_offsets_release(&offsets, kept.name), TLSF_OK);
    wants("release twice", tlsf_offsets_release(&offsets, kept.name), TLSF_STALE);
    wants("resize what was released", tlsf_offsets_resize(&offsets, &kept, 1), TLSF_STALE);
    wants("grow", tlsf_offsets_resize(&offsets, &span, 5 * 256 + 1), TLSF_OK);
    wants("its offset stays", span.offset, 0);
    wants("six units", span.size, 6 * 256);
    wants("close", tlsf_offsets_close(&offsets), TLSF_OK);
}

static struct tlsf_span held[MOST];
static int count;
static uint64_t memory;

static void is_apart(struct tlsf_span span, int but) {
    wants("it lies in the memory", span.offset + span.size <= memory, 1);
    for (int i = 0; i < count; i++)
        if (i != but) wants("apart", span.offset + span.size <= held[i].offset || held[i].offset + held[i].size <= span.offset, 1);
}

static void calls(long n, uint32_t level) {
    struct tlsf_offsets offsets = TLSF_OFFSETS_CLOSED;
    struct tlsf_offsets_usage usage = {0, 0, 0, 0};
    const uint32_t unit = 65536, units = 4096;
    memory = (uint64_t)unit * units;
    wants("open", tlsf_offsets_open(&offsets, level, 5, unit, units), TLSF_OK);
    for (turn = 0; turn < n; turn++) {
        const uint64_t bytes = below(8) ? below(1 << 20) : below(1 << 26);
        struct tlsf_span span = {{0, 0, 0}, 0, 0};
        const int which = count ? (int)below((uint32_t)count) : -1;
        switch (below(3)) {
        case 0:
            if (count == MOST || tlsf_offsets_allocate(&offsets, bytes, &span) != TLSF_OK) break;
            wants("enough", span.size >= bytes && span.size < bytes + 8 * (uint64_t)unit, 1);
            is_apart(span, -1);
            held[count++] = span;
            break;
        case 1:
            if (which < 0) break;
            wants("release", tlsf_offsets_release(&offsets, held[which].name), TLSF_OK);
            wants("and again", tlsf_offsets_release(&offsets, held[which].name), TLSF_STALE);
            held[which] = held[--count];
            break;
        default:
            if (which < 0) break;
            span = held[which];
            if (tlsf_offsets_resize(&offsets, &span, bytes) != TLSF_OK) break;
            wants("enough", span.size >= bytes, 1);
            wants("where it lay", span.offset, held[which].offset);
            is_apart(span, which);
            held[which] = span;
        }
        if (turn % 64) continue;
        uint64_t sum = 0;
        for (int k = 0; k < count; k++) sum += held[k].size;
        wants("report", tlsf_offsets_report(&offsets, &usage), TLSF_OK);
        wants("spans", usage.spans, (size_t)count);
        wants("held", usage.held, sum);
        wants("all", usage.held + usage.free, memory);
    }
    while (count) wants("release", tlsf_offsets_release(&offsets, held[--count].name), TLSF_OK);
    wants("report", tlsf_offsets_report(&offsets, &usage), TLSF_OK);
    wants("in one piece", usage.largest, memory);
    wants("close", tlsf_offsets_close(&offsets), TLSF_OK);
}

int main(int argc, char **argv) {
    const long n = argc > 1 ? atol(argv[1]) : 20000;
    const uint32_t level = argc > 2 ? (uint32_t)atoi(argv[2]) : 4;
    state = argc > 3 ? strtoull(argv[3], NULL, 10) : 1;
    refusals();
    calls(n, level);
    printf("%ld calls of an arena, and each refusal: as they have to be\n", n);
    return 0;
}
