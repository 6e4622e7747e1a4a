/* cJSON: cJSON_InitHooks, which hands over no context. A tree of values is made, written, read, copied, changed and compared. */
#include "harness.h"

#include <cJSON.h>
#include <stdio.h>
#include <string.h>

const char program_name[] = "cJSON";

const char *program_version(void) { return cJSON_Version(); }

enum { RECORDS = 4000 };

static bool fill(cJSON *it, unsigned k) {
    cJSON *list = cJSON_AddArrayToObject(it, "list");
    bool all = list != NULL && cJSON_AddNumberToObject(it, "id", k) != NULL;
    for (unsigned i = 0; all && i < k % 12; i++) {
        cJSON *number = cJSON_CreateNumber(i % 3 == 0 ? i / 8.0 : k * i);
        all = number != NULL && cJSON_AddItemToArray(list, number);
    }
    char text[128];
    snprintf(text, sizeof text, "%0*u and \xc3\xa4", (int)(k * 13 % 90), k);
    all = all && cJSON_AddStringToObject(it, "text", text) != NULL;
    for (unsigned i = 0; all && i < k % 5; i++) {
        char key[24];
        snprintf(key, sizeof key, "key %u", k * 31 % 1000 + i);
        all = i == 1 ? cJSON_AddNullToObject(it, key) != NULL : cJSON_AddBoolToObject(it, key, i % 2 == 0) != NULL;
    }
    return all;
}

static cJSON *all_records(void) {
    cJSON *root = cJSON_CreateArray();
    bool all = root != NULL;
    for (unsigned k = 0; all && k < RECORDS; k++) {
        cJSON *it = cJSON_CreateObject();
        all = it != NULL && cJSON_AddItemToArray(root, it) && fill(it, k);
    }
    if (all) return root;
    cJSON_Delete(root);
    return NULL;
}

/* Takes every third out, and gives others a text of another length. */
static bool change(cJSON *root) {
    cJSON *it, *next;
    bool all = true;
    unsigned k = 0;
    for (it = root->child; all && it != NULL; it = next, k++) {
        next = it->next;
        if (k % 3 == 0) cJSON_Delete(cJSON_DetachItemViaPointer(root, it));
        else if (k % 5 == 0)
            all = cJSON_SetValuestring(cJSON_GetObjectItem(it, "text"), "a text that is longer than most of those before") != NULL;
        else if (k % 7 == 0) cJSON_DeleteItemFromObject(it, "list");
    }
    return all;
}

static bool write(const cJSON *root, bool is_wide) {
    char *text = is_wide ? cJSON_Print(root) : cJSON_PrintUnformatted(root);
    if (text == NULL) return false;
    say_bytes(text, strlen(text));
    cJSON_free(text);
    return true;
}

/* Written and read again, it is the same; a copy of that is changed. */
static bool work(const cJSON *root) {
    char *text = root != NULL ? cJSON_PrintUnformatted(root) : NULL;
    cJSON *back = text != NULL ? cJSON_Parse(text) : NULL, *copy = back != NULL ? cJSON_Duplicate(back, true) : NULL;
    bool all = copy != NULL;
    if (all) say("the same: %d\n", cJSON_Compare(root, back, true));
    all = all && write(root, false) && change(copy) && write(copy, true);
    cJSON_Delete(copy);
    cJSON_Delete(back);
    cJSON_free(text);
    return all;
}

bool program_work(const char *file) {
    (void)file;
    cJSON_InitHooks(&(cJSON_Hooks){hook_malloc, hook_free});
    cJSON *root = all_records();
    const bool all = work(root);
    cJSON_Delete(root);
    return all;
}
