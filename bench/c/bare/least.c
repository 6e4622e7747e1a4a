/* The least program: it opens, allocates and frees. */
#include "bare.h"

static held it;

int main(void) { return opens() && gets(&it, 100) && gives(&it) ? 0 : 1; }
