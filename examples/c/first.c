/* The first block: a heap in memory of the program's, a pointer as malloc gives it, and a double free, which is refused. */
#include <stdio.h>
#include <peachanchor.h>
static unsigned char memory[65536];
static struct tlsf_heap heap; /* its bytes are zero, so it is closed */
int main(void) {
    if (tlsf_open_in(&heap, 4, 1, memory, sizeof memory)) return 1; /* level 4, heap number 1 */
    int *numbers = tlsf_malloc(&heap, 100 * sizeof *numbers);       /* aligned to 16, and not filled */
    if (!numbers) return 1;                                         /* there is no room */
    numbers[0] = 42;
    tlsf_free(&heap, numbers);
    puts(tlsf_text_of(tlsf_free(&heap, numbers))); /* a double free: it is refused, and changes nothing */
}
