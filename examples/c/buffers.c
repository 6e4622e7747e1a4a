/* Buffers in a graphics card's memory, as an engine over Vulkan would place them: one large allocation of the device's, and spans of
 * it for the buffers. The processor never touches that memory, so the library's own bookkeeping lies elsewhere. Nothing of Vulkan
 * is needed here: `struct device` stands for it, and its sizes are made up. */
#include <peachanchor.h>

#include <stdio.h>

/* --- What Vulkan has ---------------------------------------------------------------------------------------------------- */

struct requirements { /* VkMemoryRequirements */
    uint64_t size, alignment;
};
struct device {
    uint64_t bytes; /* of its VkDeviceMemory */
    int bound;      /* how many buffers */
};

/* vkBindBufferMemory: a buffer begins at a multiple of its alignment, within the memory. */
static int bind_buffer(struct device *device, struct requirements needs, uint64_t offset) {
    if (offset % needs.alignment || offset + needs.size > device->bytes) return 0;
    device->bound++;
    return 1;
}

/* --- What the engine does ------------------------------------------------------------------------------------------------ */

enum { UNIT = 64 * 1024, UNITS = 4096 }; /* 256 MiB; no buffer wants more alignment than a unit */

struct buffer {
    struct requirements needs;
    struct tlsf_span span;
};

static uint32_t create(struct tlsf_offsets *memory, struct device *device, uint64_t size, struct buffer *made) {
    made->needs = (struct requirements){size, 256};
    const uint32_t answer = tlsf_offsets_allocate(memory, size, &made->span);
    if (answer == TLSF_OK && !bind_buffer(device, made->needs, made->span.offset)) return TLSF_BAD_SIZE; /* never */
    return answer;
}

static void show(const char *what, const struct buffer *it) {
    printf("%-9s %9llu bytes at %9llu\n", what, (unsigned long long)it->span.size, (unsigned long long)it->span.offset);
}

int main(void) {
    struct device device = {(uint64_t)UNIT * UNITS, 0};
    struct tlsf_offsets memory = TLSF_OFFSETS_CLOSED;
    struct tlsf_offsets_usage usage;
    struct buffer vertices, texture, lights, shadows;
    if (tlsf_offsets_open(&memory, 4, 1, UNIT, UNITS)) return 1;
    if (create(&memory, &device, 3000000, &vertices) || create(&memory, &device, 16777216, &texture)) return 1;
    if (create(&memory, &device, 4096, &lights)) return 1;
    show("vertices", &vertices), show("texture", &texture), show("lights", &lights);

    /* The scene gets more lights: their buffer grows where it lies. */
    if (tlsf_offsets_resize(&memory, &lights.span, 500000)) return 1;
    show("lights", &lights);

    /* The level ends. Once the device is done with the texture, as a fence tells, its bytes serve again. */
    if (tlsf_offsets_release(&memory, texture.span.name)) return 1;
    if (create(&memory, &device, 8388608, &shadows)) return 1;
    show("shadows", &shadows);
    puts(tlsf_text_of(tlsf_offsets_release(&memory, texture.span.name))); /* twice */
    if (tlsf_offsets_report(&memory, &usage)) return 1;
    printf("%u spans, %llu bytes held of %llu\n", (unsigned)usage.spans, (unsigned long long)usage.held, (unsigned long long)device.bytes);
    return tlsf_offsets_close(&memory) != TLSF_OK;
}
