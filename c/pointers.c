/* The calls of peachanchor.h that are C over proved calls, those by pointer and some more: here the header's own bodies are the library's.
 * */
#define TLSF_POINTERS
#include "../include/peachanchor.h"

/* The linker's names of the calls that open a heap say so. */
_Static_assert(sizeof(struct tlsf_heap) == 32 && sizeof(struct tlsf_near_heap) == 2880, "a handle has another size: see peachanchor.h");
