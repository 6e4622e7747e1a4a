/* SQLite with all its memory in a static array. A recorder writes a row for each frame, and asks now and then. What the worst of
 * the heap's calls took is shown.
 *
 *   cc -std=c11 -O2 sqlite.c $(pkg-config --cflags --libs peachanchor sqlite3) -o sqlite
 *
 * The line with a time is of this run on this machine, as processor time: it shows no bound. */
#define _POSIX_C_SOURCE 200809L
#include <peachanchor.h>

#include <sqlite3.h>

#include <stdio.h>
#include <stdlib.h>
#include <time.h>

enum { FRAMES = 5000, BYTES = 4 << 20 };

static unsigned char memory[BYTES];
static struct tlsf_heap heap; /* closed: it is zero */
static uint64_t worst;        /* nanoseconds of a call of the heap */
static uint32_t calls, strangers;

static uint64_t now(void) {
    struct timespec t;
    clock_gettime(CLOCK_THREAD_CPUTIME_ID, &t);
    return (uint64_t)t.tv_sec * 1000000000u + (uint64_t)t.tv_nsec;
}

static void *timed(uint64_t from, void *p) {
    const uint64_t took = now() - from;
    calls++;
    if (took > worst) worst = took;
    return p;
}

/* --- The functions that SQLite wants. Where one answers null, the statement ends with SQLITE_NOMEM. ------------------- */

static void *take(int n) {
    const uint64_t from = now();
    return timed(from, tlsf_malloc(&heap, (size_t)n));
}

static void *change(void *p, int n) {
    const uint64_t from = now();
    return timed(from, tlsf_realloc(&heap, p, (size_t)n));
}

static void give_back(void *p) {
    const uint64_t from = now();
    if (tlsf_free(&heap, p) != TLSF_OK) strangers++; /* a pointer that is no block's is refused */
    timed(from, NULL);
}

static int size_of(void *p) { return (int)tlsf_usable_size(&heap, p); }
static int round_up(int n) { return (n + 15) / 16 * 16 + 8; } /* as the heap does: 8, 24, 40, .. bytes */
static int begin(void *unused) { return (void)unused, SQLITE_OK; }
static void end(void *unused) { (void)unused; }

/* --- The recorder ----------------------------------------------------------------------------------------------------- */

static int say_row(void *total, int n, char **values, char **names) {
    (void)names;
    for (int k = 0; k < n; k++) printf("%s%s", values[k], k + 1 < n ? " | " : "\n");
    *(int *)total = atoi(values[n - 1]);
    return 0;
}

static int record(sqlite3 *database, int *total) {
    static const char question[] = "select max(note), count(*), sum(load) from frame where load > 50";
    sqlite3_stmt *row = NULL;
    int answer = sqlite3_exec(database,
                              "create table frame(n integer primary key, load int, note text);"
                              "create index by_load on frame(load)",
                              NULL, NULL, NULL);
    if (answer == SQLITE_OK)
        answer = sqlite3_prepare_v2(database, "insert into frame values(?, ?, printf('frame %d', ?1))", -1, &row, NULL);
    for (int n = 1; answer == SQLITE_OK && n <= FRAMES; n++) {
        sqlite3_bind_int(row, 1, n);
        sqlite3_bind_int(row, 2, n * 7919 % 101);
        answer = sqlite3_step(row) == SQLITE_DONE ? sqlite3_reset(row) : sqlite3_errcode(database);
        if (answer == SQLITE_OK && n % 1000 == 0) answer = sqlite3_exec(database, question, say_row, total, NULL);
    }
    sqlite3_finalize(row);
    return answer;
}

int main(void) {
    static const sqlite3_mem_methods methods = {take, give_back, change, size_of, round_up, begin, end, NULL};
    struct tlsf_heap_report report = {0};
    sqlite3 *database = NULL;
    if (tlsf_open_in(&heap, 5, 1, memory, sizeof memory) != TLSF_OK) return 1;
    int total = 0, answer = sqlite3_config(SQLITE_CONFIG_MALLOC, &methods);
    if (answer == SQLITE_OK) answer = sqlite3_open(":memory:", &database);
    if (answer == SQLITE_OK) answer = record(database, &total);
    if (answer != SQLITE_OK) printf("%s\n", sqlite3_errstr(answer));
    const int closed = sqlite3_close(database) | sqlite3_shutdown();
    const bool all_back = tlsf_report(&heap, &report) == TLSF_OK && report.live_blocks == 0 && tlsf_close(&heap) == TLSF_OK;
    printf("%u live blocks are left\n", (unsigned)report.live_blocks);
    printf("time: %u calls, the worst %llu ns\n", (unsigned)calls, (unsigned long long)worst);
    return answer != SQLITE_OK || closed != SQLITE_OK || !all_back || strangers != 0 || total != 186811;
}
