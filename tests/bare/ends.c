/* Ends in the way that its word says, for tests/bare_test, which has to notice each that isn't `well`. */
#include <peachanchor.h>

#include <stdio.h>
#include <string.h>

static unsigned char memory[8192];

int main(int count, char **words) {
    struct tlsf_heap heap = TLSF_CLOSED;
    const char *const how = count == 2 ? words[1] : "badly";
    if (tlsf_open_in(&heap, 4, 1, memory, sizeof memory) != TLSF_OK) return 2;
    printf("a double free: %s\n", tlsf_text_of(tlsf_free(&heap, memory)));
    if (strcmp(how, "fault") == 0) __asm__ volatile(".word 0xffffffff"); /* no instruction */
    while (strcmp(how, "never") == 0) {}
    return strcmp(how, "well") == 0 && tlsf_close(&heap) == TLSF_OK ? 0 : 1;
}
