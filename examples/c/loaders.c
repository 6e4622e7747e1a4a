/* Three threads load images, as those of an engine would: the owner of a heap gives each image a block and sends its name to a loader,
 * over a lane. The loader fills the payload in place, while the owner goes on calling the heap, and posts the name home: all loaders
 * into one queue. The owner uses the image and releases its block. No call waits, and nothing is copied. */
#define _POSIX_C_SOURCE 200809L
#include <peachanchor.h>

#include <pthread.h>
#include <sched.h>
#include <stdio.h>

enum { LOADERS = 3, IMAGES = 3000, UNDER_WAY = 48, WORDS = 1 << 15, LONGEST = 4000 };

struct image {
    uint32_t number, bytes;
    uint8_t pixels[]; /* what a loader fills */
};

/* A call writes its handle, so the handles of two threads lie on lines of their own. */
struct loader {
    _Alignas(128) struct tlsf_take_end work;
    struct tlsf_poster home;
    uint64_t *base; /* of the heap: it leads from a name to a payload */
    pthread_t thread;
};

static uint32_t bytes_of(uint32_t number) { return 1 + number * 7919u % LONGEST; }
static uint8_t pixel_of(uint32_t number, uint32_t k) { return (uint8_t)(number * 31u + k); }

/* --- A loader ---------------------------------------------------------------------------------------------------------- */

static void *load(void *given) {
    struct loader *it = given;
    struct tlsf_name name;
    uint32_t answer;
    while ((answer = tlsf_take(&it->work, &name)) == TLSF_EMPTY || answer == TLSF_OK) {
        if (answer == TLSF_EMPTY) {
            sched_yield();
            continue;
        }
        if (name.serial == 0) break; /* no block has that serial: it says that no image comes after */
        struct image *image = tlsf_at(it->base, name);
        for (uint32_t k = 0; k < image->bytes; k++) image->pixels[k] = pixel_of(image->number, k);
        /* Full never, since the queue has room for all that are under way; busy where another loader is half through its post. */
        while (tlsf_queue_post(&it->home, name) != TLSF_OK) sched_yield();
    }
    return NULL;
}

/* --- The owner --------------------------------------------------------------------------------------------------------- */

static struct loader loaders[LOADERS];

struct owner {
    _Alignas(128) struct tlsf_heap heap;
    struct tlsf_post_end to[LOADERS];
    struct tlsf_queue queue;
    uint32_t sent, came, wrong;
};

/* Uses the images that came, and releases their blocks. */
static void collect(struct owner *it) {
    struct tlsf_name name;
    while (tlsf_queue_take(&it->queue, &name) == TLSF_OK) {
        const struct image *image = tlsf_payload(&it->heap, name, NULL);
        for (uint32_t k = 0; image && k < image->bytes; k++)
            if (image->pixels[k] != pixel_of(image->number, k)) it->wrong++;
        if (!image || tlsf_release(&it->heap, name)) it->wrong++;
        it->came++;
    }
}

/* Makes the next image's block, and sends its name. Whether there was room. */
static int send(struct owner *it) {
    const uint32_t number = it->sent;
    struct tlsf_name name;
    void *at;
    if (it->sent - it->came == UNDER_WAY) return 0;
    if (tlsf_allocate_at(&it->heap, sizeof(struct image) + bytes_of(number), 16, TLSF_UNFILLED, &name, &at)) return 0;
    *(struct image *)at = (struct image){number, bytes_of(number)};
    if (tlsf_put(&it->to[number % LOADERS], name)) { /* never: the lane has room for all that are under way */
        tlsf_release(&it->heap, name);
        return 0;
    }
    it->sent++;
    return 1;
}

int main(void) {
    static struct owner owner;
    static const struct tlsf_name last = {0, 0, 0};
    struct tlsf_heap_counts counts;
    if (tlsf_open(&owner.heap, 4, 1, WORDS) || tlsf_queue_open(&owner.queue, LOADERS, UNDER_WAY)) return 1;
    for (int k = 0; k < LOADERS; k++) {
        struct loader *it = &loaders[k];
        if (tlsf_lane_open(&owner.to[k], &it->work, UNDER_WAY + 1) || tlsf_poster_open(&owner.queue, &it->home)) return 1;
        it->base = tlsf_base(&owner.heap);
        if (pthread_create(&it->thread, NULL, load, it)) return 1;
    }
    while (owner.came < IMAGES) {
        while (owner.sent < IMAGES && send(&owner)) continue;
        collect(&owner);
        if (owner.sent == IMAGES) sched_yield();
    }
    for (int k = 0; k < LOADERS; k++)
        if (tlsf_put(&owner.to[k], last) || pthread_join(loaders[k].thread, NULL)) return 1;
    if (tlsf_counts(&owner.heap, &counts)) return 1;
    printf("%u images by %d loaders: %u wrong, %u words left in use\n", (unsigned)owner.came, (int)LOADERS, (unsigned)owner.wrong,
           (unsigned)counts.words);
    for (int k = 0; k < LOADERS; k++) tlsf_post_close(&owner.to[k]), tlsf_take_close(&loaders[k].work), tlsf_poster_close(&loaders[k].home);
    return tlsf_queue_close(&owner.queue) || tlsf_close(&owner.heap) || owner.wrong;
}
