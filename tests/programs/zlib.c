/* zlib: a stream's zalloc and zfree. Streams of each level deflate and inflate a text that was made up. */
#include "harness.h"

#include <string.h>
#include <zlib.h>

const char program_name[] = "zlib";

const char *program_version(void) { return zlibVersion(); }

enum { TEXT = 60000, PACKED = 2 * TEXT, STREAMS = 24 };

static void *take(void *unused, unsigned count, unsigned each) { return (void)unused, hook_malloc((size_t)count * each); }
static void give_back(void *unused, void *p) { (void)unused, hook_free(p); }

static unsigned char text[TEXT], packed[PACKED], back[TEXT];

static void write_text(unsigned round) {
    unsigned seed = round * 2654435761u + 1;
    for (unsigned k = 0; k < TEXT; k++) {
        seed = seed * 1103515245u + 12345;
        text[k] = (unsigned char)(k % 50 < 20 ? "twenty of fifty same"[k % 50 % 20] : (unsigned char)(seed >> 16) % 64 + ' ');
    }
}

static bool pack_and_back(unsigned round) {
    z_stream out = {.zalloc = take, .zfree = give_back, .next_in = text, .avail_in = TEXT, .next_out = packed, .avail_out = PACKED};
    z_stream in = {.zalloc = take, .zfree = give_back, .next_in = packed, .next_out = back, .avail_out = TEXT};
    const int level = (int)(round % 9) + 1, bits = 9 + (int)(round % 7), memory = (int)(round * 5 % 9) + 1;
    int answer = deflateInit2(&out, level, Z_DEFLATED, bits, memory, (int)(round % 3));
    if (answer == Z_OK) {
        answer = deflate(&out, Z_FINISH);
        deflateEnd(&out);
        if (answer != Z_STREAM_END) return false;
        say_bytes(packed, (size_t)out.total_out);
        in.avail_in = (uInt)out.total_out;
        answer = inflateInit2(&in, 15);
    }
    if (answer != Z_OK) return false;
    answer = inflate(&in, Z_FINISH);
    inflateEnd(&in);
    say("level %d, %lu bytes, %s\n", level, in.total_out, memcmp(text, back, TEXT) == 0 ? "back" : "others");
    return answer == Z_STREAM_END;
}

/* Others are open meanwhile, so that the blocks of one aren't all that there is. */
static bool open_beside(z_stream *beside, unsigned round) {
    *beside = (z_stream){.zalloc = take, .zfree = give_back};
    return deflateInit2(beside, 6, Z_DEFLATED, 9 + (int)(round % 7), 1 + (int)(round % 9), Z_DEFAULT_STRATEGY) == Z_OK;
}

bool program_work(const char *file) {
    (void)file;
    static z_stream beside[STREAMS];
    bool all = true, is_open[STREAMS] = {false};
    for (unsigned round = 0; round < STREAMS; round++) {
        write_text(round);
        all &= is_open[round] = open_beside(&beside[round], round);
        if (round % 3 == 2 && is_open[round - 1]) deflateEnd(&beside[round - 1]), is_open[round - 1] = false;
        all &= pack_and_back(round);
    }
    for (unsigned round = 0; round < STREAMS; round++)
        if (is_open[round]) deflateEnd(&beside[round]);
    return all;
}
