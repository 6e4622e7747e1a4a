/* Tries c/os.c, each function by its contract, which stands there. Its words are 'one' and an empty one. It prints nothing where all
 * holds, and else the line of each row that doesn't. */
#include <errno.h>
#include <stddef.h>
#include <stdint.h>
#include <stdio.h>
#include <string.h>

struct piece {
    uint64_t is_there;
    unsigned char *at;
};
struct piece rattle_alloc(size_t bytes, size_t align);
struct piece rattle_realloc(void *at, size_t kept, size_t bytes, size_t align);
void rattle_dealloc(void *at);
int64_t rattle_arg(size_t i, char *to, size_t room);
int32_t rattle_errno(void);
void rattle_set_errno(int32_t error);

enum { PIECES = 400, MOST = 1 << 20 };
#define TOO_LONG ((size_t)1 << 62)
static int wrong;
#define HOLDS(row) ((row) ? (void)0 : (void)(wrong = 1, printf("%s:%d\n", __FILE__, __LINE__)))

static int is_filled(const unsigned char *at, size_t bytes, int with) {
    for (size_t i = 0; i < bytes; i++) {
        if (at[i] != with) return 0;
    }
    return 1;
}

static size_t align_of(int i) { return (size_t)1 << i % 5; }

/* Lengths of 0 too, each a multiple of the alignment, as those of types are. */
static size_t bytes_of(int i) { return (size_t)(i % 7) * (size_t)(i % 11) * align_of(i); }

/* All pieces live at once, and each keeps what was written to it. */
static void try_pieces(void) {
    static struct piece all[PIECES];
    for (int i = 0; i < PIECES; i++) {
        all[i] = rattle_alloc(bytes_of(i), align_of(i));
        HOLDS(all[i].is_there == 1 && (uintptr_t)all[i].at % align_of(i) == 0);
        memset(all[i].at, i & 255, bytes_of(i));
    }
    for (int i = 0; i < PIECES; i++) {
        HOLDS(is_filled(all[i].at, bytes_of(i), i & 255));
        for (int k = 0; k < i; k++) HOLDS(all[k].at != all[i].at);
    }
    for (int i = 0; i < PIECES; i++) rattle_dealloc(all[i].at);
}

static void try_lengths(void) {
    static const size_t lengths[] = {MOST, 8, 0, 64, 0, 0, 4096};
    struct piece now = rattle_alloc(24, 8);
    size_t had = 24;
    memset(now.at, 7, had);
    for (size_t i = 0; i < sizeof lengths / sizeof *lengths; i++) {
        const size_t kept = had < lengths[i] ? had : lengths[i];
        now = rattle_realloc(now.at, kept, lengths[i], 8);
        HOLDS(now.is_there == 1 && now.at && is_filled(now.at, kept, 7));
        memset(now.at, 7, had = lengths[i]);
    }
    struct piece refused = rattle_realloc(now.at, had, TOO_LONG, 8);
    HOLDS(refused.is_there == 0 && refused.at && is_filled(now.at, had, 7));
    rattle_dealloc(now.at);
    refused = rattle_alloc(TOO_LONG, 16);
    HOLDS(refused.is_there == 0 && refused.at);
}

/* argument(I, ROOM, ANSWER, TEXT): what the call answers and puts into so much room, with all behind it as it was. */
static void argument(size_t i, size_t room, int64_t answer, const char *text) {
    unsigned char to[16];
    memset(to, 9, sizeof to);
    HOLDS(rattle_arg(i, (char *)to, room) == answer);
    HOLDS(!memcmp(to, text, strlen(text)) && is_filled(to + strlen(text), sizeof to - strlen(text), 9));
}

static void try_arguments(void) {
    char name[4096];
    HOLDS(rattle_arg(0, name, sizeof name) > 0);
    argument(1, 16, 3, "one");
    argument(1, 3, 3, "one");
    argument(1, 2, -2, "on");
    argument(1, 0, -2, "");
    argument(2, 16, 0, "");
    argument(2, 0, 0, "");
    argument(3, 16, -1, "");
    argument(SIZE_MAX, 16, -1, "");
}

int main(void) {
    try_pieces();
    try_lengths();
    try_arguments();
    rattle_set_errno(ENOENT);
    HOLDS(errno == ENOENT && rattle_errno() == ENOENT);
    errno = 0;
    HOLDS(rattle_errno() == 0);
    return wrong;
}
