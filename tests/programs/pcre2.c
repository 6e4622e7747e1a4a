/* PCRE2: a general context has the two functions. Patterns are compiled, matched and used to replace; what backtracks takes more. */
#define PCRE2_CODE_UNIT_WIDTH 8
#include "harness.h"

#include <pcre2.h>
#include <string.h>

const char program_name[] = "pcre2";

const char *program_version(void) {
    static char version[64];
    pcre2_config(PCRE2_CONFIG_VERSION, version);
    version[strcspn(version, " ")] = 0;
    return version;
}

enum { TEXT = 20000, ROUNDS = 1500 };

static void *take(size_t n, void *unused) { return (void)unused, hook_malloc(n); }
static void give_back(void *p, void *unused) { (void)unused, hook_free(p); }

static char text[TEXT];

static void write_text(void) {
    unsigned seed = 7;
    for (unsigned k = 0; k < TEXT; k++) {
        seed = seed * 1103515245u + 12345;
        text[k] = "abcdefghij0123456789 .,:-@AB\n  "[(seed >> 16) % 31];
    }
}

static const char *const patterns[] = {"(\\w+)@(\\w+)",
                                       "^(?<key>[a-j]+)[:=]\\s*(?<value>.*)$",
                                       "(?:a|b|c[de]*)+(?=\\d)",
                                       "(\\d+)[^\\d]+\\1",
                                       "\\b([a-z])\\w*\\1\\b",
                                       "(?i)ab(?:c|d)?.{0,9}?[0-4]",
                                       "((a|b)*c?){3,7}\\d",
                                       "(?<!\\d)\\d{2,4}(?!\\d)",
                                       "[^\\s]+\\s+(?>[a-f]+)[g-j]"};

/* All matches from `at` on, at most `most` of them. */
static bool find(const pcre2_code *code, pcre2_match_data *match, pcre2_match_context *context, size_t at, unsigned most) {
    unsigned found = 0;
    int answer = 0;
    while (found < most && (answer = pcre2_match(code, (PCRE2_SPTR)text, TEXT, at, 0, match, context)) > 0) {
        const size_t *ends = pcre2_get_ovector_pointer(match);
        if (found++ == 0) {
            say("%d groups, ", answer);
            say_bytes(text + ends[0], ends[1] - ends[0]);
            say("\n");
        }
        at = ends[1] > ends[0] ? ends[1] : ends[1] + 1;
    }
    say("%u found\n", found);
    return answer > 0 || answer == PCRE2_ERROR_NOMATCH;
}

static bool replace(const pcre2_code *code, pcre2_match_context *context) {
    static unsigned char to[4 * TEXT];
    size_t n = sizeof to;
    const int answer =
        pcre2_substitute(code, (PCRE2_SPTR)text, 2000, 0, PCRE2_SUBSTITUTE_GLOBAL, NULL, context, (PCRE2_SPTR) "<$0>", 4, to, &n);
    if (answer >= 0) say_bytes(to, n);
    return answer >= 0;
}

static bool try_pattern(unsigned round, pcre2_general_context *general, pcre2_compile_context *compiles, pcre2_match_context *matches) {
    const char *pattern = patterns[round % (sizeof patterns / sizeof *patterns)];
    int error = 0;
    size_t where = 0;
    pcre2_code *code = pcre2_compile((PCRE2_SPTR)pattern, PCRE2_ZERO_TERMINATED, PCRE2_MULTILINE, &error, &where, compiles);
    pcre2_match_data *match = code != NULL ? pcre2_match_data_create_from_pattern(code, general) : NULL;
    bool all = match != NULL;
    for (unsigned k = 0; all && k < 4; k++) all = find(code, match, matches, round * 61 % 5000 * k, 1 + k);
    all = all && (round % 50 != 0 || replace(code, matches));
    pcre2_match_data_free(match);
    pcre2_code_free(code);
    return all;
}

bool program_work(const char *file) {
    (void)file;
    write_text();
    pcre2_general_context *general = pcre2_general_context_create(take, give_back, NULL);
    pcre2_compile_context *compiles = general != NULL ? pcre2_compile_context_create(general) : NULL;
    pcre2_match_context *matches = general != NULL ? pcre2_match_context_create(general) : NULL;
    bool all = compiles != NULL && matches != NULL;
    for (unsigned round = 0; all && round < ROUNDS; round++) all = try_pattern(round, general, compiles, matches);
    pcre2_match_context_free(matches);
    pcre2_compile_context_free(compiles);
    pcre2_general_context_free(general);
    return all;
}
