/* An environment for tests/c/states.c, which has none on a board: tests/bare_test says by SPOILS which way to spoil is meant. */
#include <stddef.h>
#include <string.h>

char *own_getenv(const char *name);
char *own_getenv(const char *name) {
    static char number[] = {'0' + SPOILS, 0};
    return strcmp(name, "WRONG") == 0 ? number : NULL;
}
