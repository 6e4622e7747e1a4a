// Tries all histories of a small heap, and says from how many words on no request is refused for want of room.
// Its model is the page docs/MODEL.md: a list of blocks, good fit, the last freed first, rests of four words split off.
#include <cstdint>
#include <cstdio>
#include <cstdlib>
#include <unordered_set>
#include <vector>

struct Kind {
    int most, want;
}; // at most so many blocks at once, of so many words wanted at most

struct Block {
    int size, kind, stamp;
}; // kind -1: free, since that stamp

using Heap = std::vector<Block>;

static std::vector<Kind> kinds;
static bool resizes;

// the class of a size, by its least size: 16 classes between two powers of two
static int class_of(int size) {
    int width = 1;
    while (size >= 32 * width) width *= 2;
    return size / width * width;
}

// the least size of the class at or above n words: every free block from it on serves
static int sure(int n) {
    int least = class_of(n);
    while (least < n) least = class_of(n++ + 1);
    return least;
}

// the kind that a request of so many words counts for: the first that is long enough
static int kind_of(int want) {
    int kind = 0;
    while (kinds[kind].want < want) kind++;
    return kind;
}

static int count(const Heap &heap, int kind) {
    int held = 0;
    for (const Block &block : heap) held += block.kind == kind;
    return held;
}

// whether one more of this kind keeps within the table
static bool is_planned(const Heap &heap, int kind) {
    for (int k = 0; k < (int)kinds.size(); k++)
        if (count(heap, k) + (k == kind) > kinds[k].most) return false;
    return true;
}

// the index of the block that serves, -1 where none does
static int choice(const Heap &heap, int want) {
    int best = -1, least = sure(want);
    for (int i = 0; i < (int)heap.size(); i++) {
        if (heap[i].kind >= 0 || heap[i].size < least) continue;
        if (best < 0) {
            best = i;
            continue;
        }
        int a = class_of(heap[i].size), b = class_of(heap[best].size);
        if (a < b || (a == b && heap[i].stamp > heap[best].stamp)) best = i;
    }
    return best;
}

static Heap allocated(Heap heap, int i, int want, int tick) {
    int rest = heap[i].size - want;
    heap[i].kind = kind_of(want);
    if (rest >= 4) {
        heap[i].size = want;
        heap.insert(heap.begin() + i + 1, Block{rest, -1, tick});
    }
    return heap;
}

static Heap released(Heap heap, int i, int tick) {
    heap[i].kind = -1;
    heap[i].stamp = tick;
    if (i + 1 < (int)heap.size() && heap[i + 1].kind < 0) {
        heap[i].size += heap[i + 1].size;
        heap.erase(heap.begin() + i + 1);
    }
    if (i > 0 && heap[i - 1].kind < 0) {
        heap[i].size += heap[i - 1].size;
        heap.erase(heap.begin() + i - 1);
    }
    return heap;
}

// a resize in place; the heap as it was where there is no room
static Heap resized(Heap heap, int i, int want, int tick) {
    bool next_is_free = i + 1 < (int)heap.size() && heap[i + 1].kind < 0;
    int room = heap[i].size + (next_is_free ? heap[i + 1].size : 0);
    if (room < want) return heap;
    heap[i].kind = kind_of(want);
    if (want <= heap[i].size && heap[i].size < want + 4) return heap;
    if (next_is_free) heap.erase(heap.begin() + i + 1);
    heap[i].size = room;
    if (room >= want + 4) {
        heap[i].size = want;
        heap.insert(heap.begin() + i + 1, Block{room - want, -1, tick});
    }
    return heap;
}

// stamps matter among free blocks of one class alone: there they become 0, 1, .. in their order
static void normalize(Heap &heap) {
    Heap old = heap;
    for (size_t i = 0; i < heap.size(); i++) {
        heap[i].stamp = 0;
        if (old[i].kind >= 0) continue;
        for (const Block &other : old)
            heap[i].stamp += other.kind < 0 && class_of(other.size) == class_of(old[i].size) && other.stamp < old[i].stamp;
    }
}

// size 6 bits, kind 2 bits, stamp 3 bits: 11 bits a block, at most 11 blocks
using Key = unsigned __int128;
struct Hash {
    size_t operator()(Key key) const { return ((uint64_t)key ^ (uint64_t)(key >> 64) * 0x9e3779b97f4a7c15u) * 0xff51afd7ed558ccdu; }
};

static Key key_of(const Heap &heap) {
    Key key = 1;
    for (const Block &block : heap) key = key << 11 | (block.size << 5) | (block.kind + 1) << 3 | block.stamp;
    return key;
}

static Heap heap_of(Key key) {
    Heap heap;
    for (; key != 1; key >>= 11) {
        int bits = (int)(key & 0x7ff);
        heap.insert(heap.begin(), Block{bits >> 5, (bits >> 3 & 3) - 1, bits & 7});
    }
    return heap;
}

// whether some history of a region of so many words has a request within the table that finds no room
static bool refuses(int words, size_t *states) {
    const int tick = 8; // above every stamp of a normalized heap
    std::unordered_set<Key, Hash> seen;
    std::vector<Key> todo;
    auto meet = [&](Heap heap) {
        normalize(heap);
        Key key = key_of(heap);
        if (seen.insert(key).second) todo.push_back(key);
    };
    meet({Block{words, -1, 0}});
    while (!todo.empty()) {
        Heap heap = heap_of(todo.back());
        todo.pop_back();
        for (int want = 4; want <= kinds.back().want; want++) {
            if (!is_planned(heap, kind_of(want))) continue;
            int i = choice(heap, want);
            if (i < 0) return true;
            meet(allocated(heap, i, want, tick));
        }
        for (int i = 0; i < (int)heap.size(); i++) {
            if (heap[i].kind < 0) continue;
            meet(released(heap, i, tick));
            for (int want = 4; resizes && want <= kinds.back().want; want++) meet(resized(heap, i, want, tick));
        }
    }
    *states = seen.size();
    return false;
}

// usage: histories LAW RESIZES B M [B M]..  with M the words wanted, rising; at most three kinds, and sizes below 64
int main(int argc, char **argv) {
    int law = atoi(argv[1]);
    resizes = atoi(argv[2]);
    for (int i = 3; i + 1 < argc; i += 2) kinds.push_back(Kind{atoi(argv[i]), atoi(argv[i + 1])});
    size_t states = 0;
    int words = law;
    while (words >= 4 && !refuses(words, &states)) words--;
    size_t most = 0;
    if (words < law) refuses(words + 1, &most);
    printf("%d %zu\n", words + 1, words < law ? most : states);
}
