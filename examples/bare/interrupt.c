/* A Cortex-M4 with an interrupt handler that frees: the main loop fills buffers and hands each to a device, whose handler (SysTick here)
 * takes the bytes and frees the buffer. The heap is the main loop's alone, so the handler puts the block's name into a lane. That takes a
 * bounded number of instructions, waits for nothing and may come between any two instructions of a call. The main loop drains the lane.
 *
 * It prints over the serial port of qemu's machine mps2-an386, and ends qemu by semihosting. A board has other addresses for the port. */
#include <peachanchor.h>

enum { BUFFERS = 200, LONGEST = 240, LANE = 8 };

static unsigned char memory[16 << 10], lane_memory[2 << 10];
static struct tlsf_heap heap;     /* the main loop's */
static struct tlsf_take_end take; /* likewise */
static struct tlsf_post_end post; /* the handler's */

/* What the device sends now: the main loop writes it while `is_sending` is false, and the handler has it else. */
static struct tlsf_name sent;
static const unsigned char *sent_bytes;
static uint32_t sent_length;
static volatile bool is_sending;

/* The handler's own. */
static volatile uint32_t sum, sent_count, full_count;

void on_tick(void); /* of the vectors in start-cortex-m.S */
void on_tick(void) {
    if (!is_sending) return;
    if (sent_length > 0) { /* so many bytes go with each tick */
        const uint32_t n = sent_length < 64 ? sent_length : 64;
        for (uint32_t i = 0; i < n; i++) sum += sent_bytes[i];
        sent_bytes += n, sent_length -= n;
        return;
    }
    if (tlsf_put(&post, sent) != TLSF_OK) { /* the lane is full: it is tried again with the next tick */
        full_count++;
        return;
    }
    sent_count++;
    is_sending = false;
}

/* --- The board ------------------------------------------------------------------------------------------------------ */

#define REGISTER(at) (*(volatile uint32_t *)(at))

static void say(const char *text) {
    while (*text) {
        while (REGISTER(0x40004004) & 1) {} /* the port's buffer is full */
        REGISTER(0x40004000) = (uint8_t)*text++;
    }
}

static void say_number(const char *before, uint32_t n, const char *behind) {
    char digits[11], *at = digits + 10;
    *at = 0;
    do *--at = (char)('0' + n % 10);
    while (n /= 10);
    say(before), say(at), say(behind);
}

static void begin_board(void) {
    REGISTER(0x40004010) = 16; /* the port's clock, */
    REGISTER(0x40004008) = 1;  /* and it sends */
    REGISTER(0xe000e014) = 25000 - 1;
    REGISTER(0xe000e018) = 0;
    REGISTER(0xe000e010) = 7; /* SysTick, each millisecond by the processor's clock of 25 MHz, with its interrupt */
}

static void wait_for_interrupt(void) { __asm__ volatile("wfi" ::: "memory"); }

/* --- The main loop --------------------------------------------------------------------------------------------------- */

/* Fills a buffer and hands it over. There may be no room until the lane is drained. */
static bool sends(uint32_t number, uint32_t *wanted) {
    struct tlsf_name name;
    const uint32_t length = 1 + number * 37 % LONGEST;
    if (tlsf_allocate(&heap, length, &name) != TLSF_OK) return false;
    unsigned char *const bytes = tlsf_payload(&heap, name, NULL);
    for (uint32_t i = 0; i < length; i++) *wanted += bytes[i] = (unsigned char)(number + i);
    sent = name, sent_bytes = bytes, sent_length = length;
    __asm__ volatile("" ::: "memory"); /* one core: the handler sees all of it once this is true */
    is_sending = true;
    return true;
}

static bool runs(uint32_t *came_back) {
    uint32_t number = 0, wanted = 0, came;
    while (*came_back < BUFFERS) {
        if (tlsf_drain(&heap, &take, LANE, &came) != TLSF_OK) return false;
        *came_back += came;
        if (number < BUFFERS && !is_sending && sends(number, &wanted)) number++;
        else wait_for_interrupt();
    }
    return sum == wanted && sent_count == BUFFERS;
}

int main(void) {
    struct tlsf_heap_report report;
    uint32_t came_back = 0;
    if (tlsf_open_in(&heap, 4, 1, memory, sizeof memory) != TLSF_OK) return 1;
    if (tlsf_lane_open_in(&post, &take, LANE, lane_memory, sizeof lane_memory) != TLSF_OK) return 1;
    begin_board();
    const bool is_right = runs(&came_back) && tlsf_report(&heap, &report) == TLSF_OK && report.live_blocks == 0;
    say_number("buffers that the handler freed: ", sent_count, "\n");
    say_number("names that came by the lane: ", came_back, "\n");
    say(is_right ? "right\n" : "wrong\n");
    return is_right ? 0 : 1;
}
