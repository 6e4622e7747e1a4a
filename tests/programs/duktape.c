/* Duktape: duk_create_heap, whose hooks have a context. A program of JavaScript is compiled and run: objects, closures, texts,
 * regular expressions, JSON, buffers, errors, and cycles that the collector takes back. */
#include "harness.h"

#include <duktape.h>
#include <stdio.h>
#include <stdlib.h>

const char program_name[] = "Duktape";

const char *program_version(void) {
    static char text[40];
    snprintf(text, sizeof text, "%ld.%ld.%ld", DUK_VERSION / 10000, DUK_VERSION / 100 % 100, DUK_VERSION % 100);
    return text;
}

static const char source[] =
    "function node(k, next) { return { key: 'k' + k, value: k * 3 / 7, next: next, tags: [k % 5, String(k), { deep: k }] }; }\n"
    "var list = null, by_key = {};\n"
    "for (var k = 0; k < 4000; k++) { list = node(k, list); by_key[list.key] = list; if (k % 3 === 0) delete by_key['k' + (k >> 1)]; }\n"
    "say('keys ' + Object.keys(by_key).length);\n"
    "var counters = [], i;\n"
    "for (i = 0; i < 300; i++) counters.push((function (at) { return function () { at += i; return at; }; })(i));\n"
    "say('counted ' + counters.reduce(function (sum, count) { return sum + count(); }, 0));\n"
    "var text = '';\n"
    "for (i = 0; i < 3000; i++) text += 'word' + (i * 7919 % 1009) + (i % 11 ? ' ' : ',\\n');\n"
    "var words = text.split(/[ ,\\n]+/), found = text.match(/word(\\d)\\1\\d?\\b/g);\n"
    "say(words.length + ' words, ' + found.length + ' doubled, ' + text.replace(/word(\\d+)/g, '<$1>').length + ' ' + found.slice(0, 9));\n"
    "words.sort(); say(words.slice(100, 110).join());\n"
    "var data = { list: [] };\n"
    "for (i = 0; i < 800; i++) data.list.push({ id: i, name: 'name ' + i, parts: words.slice(i, i + i % 7), half: i / 2, none: null });\n"
    "var json = JSON.stringify(data, null, 1), back = JSON.parse(json);\n"
    "say(json.length + ' ' + (JSON.stringify(back) === JSON.stringify(data)) + ' ' + json.slice(3000, 3200));\n"
    "var bytes = new Uint8Array(20000), sum = 0;\n"
    "for (i = 0; i < bytes.length; i++) bytes[i] = i * i % 251;\n"
    "for (i = 0; i < 200; i++) sum += bytes.subarray(i * 90, i * 90 + 60)[59];\n"
    "say('bytes ' + sum);\n"
    "for (i = 0; i < 3000; i++) { var a = { i: i }, b = { other: a, rest: [i, i + 1] }; a.other = b; }\n"
    "var caught = 0;\n"
    "for (i = 0; i < 200; i++) { try { null.none; } catch (e) { caught += e instanceof TypeError ? 1 : 0; } }\n"
    "say('caught ' + caught);\n";

static void *take(void *context, duk_size_t n) {
    (void)context;
    return n != 0 ? hook_malloc(n) : NULL;
}

static void *change(void *context, void *p, duk_size_t n) {
    (void)context;
    if (n != 0) return hook_realloc(p, n);
    hook_free(p);
    return NULL;
}

static void give(void *context, void *p) {
    (void)context;
    hook_free(p);
}

/* Nothing here is outside of duk_safe_call, so this is never called. */
static void end_all(void *context, const char *text) {
    (void)context;
    fprintf(stderr, "Duktape: %s\n", text);
    abort();
}

static duk_ret_t say_text(duk_context *script) {
    say("%s\n", duk_safe_to_string(script, 0));
    return 0;
}

static duk_ret_t run_all(duk_context *script, void *unused) {
    (void)unused;
    duk_push_c_function(script, say_text, 1);
    duk_put_global_string(script, "say");
    duk_eval_string_noresult(script, source);
    return 0;
}

bool program_work(const char *file) {
    (void)file;
    duk_context *script = duk_create_heap(take, change, give, NULL, end_all);
    const bool all = script != NULL && duk_safe_call(script, run_all, NULL, 0, 1) == DUK_EXEC_SUCCESS;
    if (script != NULL) duk_destroy_heap(script);
    return all;
}
