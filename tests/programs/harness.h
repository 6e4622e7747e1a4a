/* Real programs on the heap: what a program's file gives to the harness, and what it takes from it. The harness (harness.c) has
 * `main`. It runs the workload in children of its own, on malloc and on heaps, and compares what the workload says. */
#ifndef HARNESS_H
#define HARNESS_H

#include <stdbool.h>
#include <stddef.h>

#ifdef __cplusplus
extern "C" {
#endif

/* --- What a program's file has ----------------------------------------------------------------------------------------- */

extern const char program_name[];
const char *program_version(void);

/* Hands the program the hook, does the same work in each run, and ends all that it began, also where memory is refused to it.
 * `file` is the file that the command line names, or null. True where nothing was refused. */
bool program_work(const char *file);

/* --- What it takes: the hook, which leads to malloc or to a heap ------------------------------------------------------- */

void *hook_malloc(size_t n);
void *hook_calloc(size_t count, size_t each);
void *hook_realloc(void *p, size_t n);
void hook_free(void *p);
size_t hook_usable_size(void *p);

/* --- What it says: the answers, which have to be the same on malloc and on a heap -------------------------------------- */

#if defined(__GNUC__)
__attribute__((format(printf, 1, 2)))
#endif
void say(const char *format, ...);
void say_bytes(const void *bytes, size_t n);

#ifdef __cplusplus
}
#endif

#endif
