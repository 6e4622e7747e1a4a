/* Jansson: json_set_alloc_funcs. A tree of values is made, written, read, copied and compared. */
#include "harness.h"

#include <jansson.h>
#include <string.h>

const char program_name[] = "jansson";

const char *program_version(void) { return JANSSON_VERSION; }

enum { RECORDS = 4000 };

static json_t *record(unsigned k) {
    json_t *it = json_object(), *list = json_array();
    int wrong = 0;
    for (unsigned i = 0; i < k % 12; i++) wrong |= json_array_append_new(list, i % 3 == 0 ? json_real(i / 8.0) : json_integer(k * i));
    wrong |= json_object_set_new(it, "id", json_integer(k)) | json_object_set_new(it, "list", list);
    wrong |= json_object_set_new(it, "text", json_sprintf("%0*u and \xc3\xa4", (int)(k * 13 % 90), k));
    for (unsigned i = 0; i < k % 5; i++) {
        char key[16];
        snprintf(key, sizeof key, "key %u", k * 31 % 1000 + i);
        wrong |= json_object_set_new(it, key, i == 1 ? json_null() : json_boolean(i % 2));
    }
    if (wrong == 0) return it;
    json_decref(it);
    return NULL;
}

static json_t *all_records(void) {
    json_t *root = json_array();
    for (unsigned k = 0; root != NULL && k < RECORDS; k++)
        if (json_array_append_new(root, record(k)) != 0) {
            json_decref(root);
            return NULL;
        }
    return root;
}

/* Takes every third out, and says what is left. */
static bool thin_out(json_t *root) {
    for (size_t k = json_array_size(root); k > 0; k--)
        if (k % 3 == 0) json_array_remove(root, k - 1);
    json_t *by_id = json_object();
    bool all = by_id != NULL;
    for (size_t k = 0; all && k < json_array_size(root); k += 9) {
        json_t *it = json_array_get(root, k);
        char key[16];
        snprintf(key, sizeof key, "%llu", (unsigned long long)json_integer_value(json_object_get(it, "id")));
        all = json_object_set(by_id, key, it) == 0;
    }
    char *text = all ? json_dumps(by_id, JSON_INDENT(2) | JSON_SORT_KEYS) : NULL;
    if (text != NULL) say_bytes(text, strlen(text));
    hook_free(text);
    json_decref(by_id);
    return text != NULL;
}

bool program_work(const char *file) {
    (void)file;
    json_set_alloc_funcs(hook_malloc, hook_free);
    json_object_seed(1);
    json_t *root = all_records();
    char *text = root != NULL ? json_dumps(root, JSON_COMPACT) : NULL;
    json_t *back = text != NULL ? json_loads(text, 0, NULL) : NULL, *copy = back != NULL ? json_deep_copy(back) : NULL;
    if (text != NULL) say_bytes(text, strlen(text));
    say("\nthe same: %d\n", json_equal(root, copy));
    const bool all = copy != NULL && thin_out(copy);
    json_decref(copy);
    json_decref(back);
    json_decref(root);
    hook_free(text);
    return all;
}
