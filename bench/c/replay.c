/* Makes the calls of recorded traces (docs/TRACE.md). bench/peers builds and runs it.
 *
 * REPLAY COLUMN HOW TIMES TRACE.. prints 'ALLOCATES RELEASES RESIZES REFUSED NANOSECONDS', with the columns of column.h. HOW is pointer or
 * name. Each worker of a trace has a heap of its own, of twice the trace's words where a region may have so many. A block that another worker
 * frees goes back to its owner's heap at once. A refused call is counted, and left out. A trace is replayed TIMES times, each time on new
 * heaps. What it leaves live goes back, but for the last time, whose calls are the trace's alone. NANOSECONDS is the sum of the traces' least
 * times, by the number of calls. */
#define _GNU_SOURCE
#include "column.h"

enum { MOST_CALLS = 1 << 15, MOST_WORKERS = 8, WORDS = 1 << 20 };
static struct line {
    char kind;
    uint32_t worker, label, bytes;
} lines[MOST_CALLS];
static struct block blocks[MOST_CALLS];
static void *owners[MOST_CALLS]; /* the heap of each live block, else null */
static void *heaps[MOST_WORKERS];
static uint32_t count, workers, words;
static uint64_t allocates, releases, resizes, refused;

static void read_trace(const char *path) {
    char text[4096];
    FILE *const file = fopen(path, "r");
    ends_if(!file || !fgets(text, sizeof text, file) || sscanf(text, "tlsf %*u %u %u", &workers, &words) != 2, path);
    ends_if(workers > MOST_WORKERS, "so many workers");
    for (count = 0; fgets(text, sizeof text, file);) {
        struct line it = {text[0], 0, 0, 0};
        if (!strchr("afr", it.kind) || text[1] != ' ') continue;
        ends_if(count == MOST_CALLS || sscanf(text + 2, "%u %u %u", &it.worker, &it.label, &it.bytes) < 2, text);
        ends_if(it.worker >= workers || it.label >= MOST_CALLS, text);
        lines[count++] = it;
    }
    fclose(file);
}

static void replay(const struct calls *calls) {
    for (uint32_t i = 0; i < count; i++) {
        const struct line *const it = &lines[i];
        struct block *const block = &blocks[it->label];
        void *const heap = owners[it->label];
        if (it->kind == 'a') {
            allocates++;
            const bool is_given = calls->allocate(heaps[it->worker], block, it->bytes);
            owners[it->label] = is_given ? heaps[it->worker] : NULL;
            refused += !is_given;
        } else if (heap && it->kind == 'f') {
            releases++;
            calls->release(heap, block);
            owners[it->label] = NULL;
        } else if (heap) {
            resizes++;
            refused += !calls->resize(heap, block, it->bytes);
        }
    }
}

int main(int argc, char **argv) {
    if (argc < 5) return 2;
    const struct calls calls = calls_of(argv[1], *argv[2] == 'n');
    const int times = atoi(argv[3]);
    double took = 0;
    for (int trace = 4; trace < argc; trace++) {
        double least = 1e18;
        read_trace(argv[trace]);
        const size_t bytes = bytes_for(argv[1], words > WORDS / 2 ? WORDS : 2 * words);
        for (int time = 0; time < times; time++) {
            memset(owners, 0, sizeof owners);
            for (uint32_t k = 0; k < workers; k++) ends_if(!(heaps[k] = calls.open(argv[1], bytes, own_memory(bytes))), "the heap");
            const double from = nanoseconds();
            replay(&calls);
            if (nanoseconds() - from < least) least = nanoseconds() - from;
            for (uint32_t label = 0; time + 1 < times && label < MOST_CALLS; label++)
                if (owners[label]) calls.release(owners[label], &blocks[label]);
        }
        took += least;
    }
    const double all = (double)(allocates + releases + resizes) / times;
    printf("%.0f %.0f %.0f %.0f %.2f\n", (double)allocates / times, (double)releases / times, (double)resizes / times,
           (double)refused / times, took / all);
    return 0;
}
