/* The memory of hedit.wasm: the heap of the engine, and the calls that compilers make to copy and to
 * fill.
 *
 * The heap is a sequence of blocks, from the end of the module's data to the end of its memory. A
 * block begins with a word that has its size and two bits: whether it is free, and whether the
 * block before it is. The bytes for the caller begin after that word, at a multiple of 16. A free
 * block has its size in its last word too, for the block after it. Two adjacent free blocks are
 * merged at once.
 *
 * Free blocks are in lists, one for each class of sizes: 16 classes from a power of two to the next.
 * A block is taken from the first list in which each one is large enough, which two words of bits
 * show, and its rest is freed again. So taking and freeing a block costs the same in a large heap as
 * in a small one.
 *
 * The memory grows if no free block is large enough, and never shrinks. If growth is refused, the
 * block isn't taken, and the heap is unchanged. */

/* The toolchain's clang comes without headers. */
typedef __SIZE_TYPE__ size_t;
typedef __UINT8_TYPE__ uint8_t;

enum { PAGE = 65536 };

/* The size of a block is a multiple of the unit, and its head has the bits below. */
enum { UNIT = 16, LEAST = 2 * UNIT, FREE = 1, AFTER_FREE = 2 };

enum { ROWS = 64, CLASSES = 16 };

/* More than any memory has, so that sums of sizes stay in range. */
static const size_t MOST = (size_t)1 << 40;

typedef struct block {
    size_t head;
    /* In a free block, its neighbours in the list. */
    struct block *next;
    struct block *previous;
} block;

/* Where the module's data ends; the linker puts it there. */
extern uint8_t __heap_base;

/* The lists, a row for each power of two; the rows that aren't empty, and the lists in each. */
static block *lists[ROWS][CLASSES];
static size_t rows;
static unsigned columns[ROWS];

/* The word behind the last block, as the head of one that is taken and has no size. */
static block *end;

static size_t size_of(const block *it) { return it->head & ~(size_t)(UNIT - 1); }

static block *at(block *it, size_t distance) { return (block *)((uint8_t *)it + distance); }

static block *after(block *it) { return at(it, size_of(it)); }

static block *block_of(void *bytes) { return (block *)((uint8_t *)bytes - sizeof(size_t)); }

static void *bytes_of(block *it) { return (uint8_t *)it + sizeof(size_t); }

/* Returns the size of a block that has a number of bytes. */
static size_t size_for(size_t bytes) {
    size_t size = (bytes + sizeof(size_t) + UNIT - 1) & ~(size_t)(UNIT - 1);
    return size < LEAST ? LEAST : size;
}

static unsigned row_of(size_t size) { return 63 - __builtin_clzl(size); }

static unsigned column_of(size_t size) { return (size >> (row_of(size) - 4)) % CLASSES; }

/* The size, rounded up to where a class begins: from there on all blocks are large enough. */
static size_t class_from(size_t size) {
    size_t width = (size_t)1 << (row_of(size) - 4);
    return (size + width - 1) & ~(width - 1);
}

static void put(block *it) {
    unsigned row = row_of(size_of(it)), column = column_of(size_of(it));
    block *first = lists[row][column];
    it->previous = nullptr;
    it->next = first;
    if (first)
        first->previous = it;
    lists[row][column] = it;
    columns[row] |= 1u << column;
    rows |= (size_t)1 << row;
}

static void take_out(block *it) {
    if (it->next)
        it->next->previous = it->previous;
    if (it->previous) {
        it->previous->next = it->next;
        return;
    }
    unsigned row = row_of(size_of(it)), column = column_of(size_of(it));
    lists[row][column] = it->next;
    if (it->next)
        return;
    columns[row] &= ~(1u << column);
    if (!columns[row])
        rows &= ~((size_t)1 << row);
}

/* A free block of a class from this size on, or null. */
static block *find(size_t size) {
    unsigned row = row_of(size);
    unsigned fitting = columns[row] & (~0u << column_of(size));
    if (!fitting) {
        size_t larger = rows & ~(((size_t)2 << row) - 1);
        if (!larger)
            return nullptr;
        row = __builtin_ctzl(larger);
        fitting = columns[row];
    }
    return lists[row][__builtin_ctz(fitting)];
}

/* Frees a block that is in no list, and merges it with adjacent free blocks. */
static void free_block(block *it) {
    size_t size = size_of(it);
    block *next = at(it, size);
    if (next->head & FREE) {
        take_out(next);
        size += size_of(next);
    }
    if (it->head & AFTER_FREE) {
        size_t before = ((size_t *)it)[-1];
        it = (block *)((uint8_t *)it - before);
        take_out(it);
        size += before;
    }
    it->head = size | FREE;
    next = at(it, size);
    ((size_t *)next)[-1] = size;
    next->head |= AFTER_FREE;
    put(it);
}

/* Keeps of a block that is in no list this size, and frees the rest. */
static void keep(block *it, size_t size) {
    size_t rest = size_of(it) - size;
    if (rest < LEAST) {
        it->head &= ~(size_t)FREE;
        after(it)->head &= ~(size_t)AFTER_FREE;
        return;
    }
    it->head = size | (it->head & AFTER_FREE);
    block *left = after(it);
    left->head = rest;
    free_block(left);
}

/* Grows the memory from so many pages by some more. The instruction answers the count of pages before.
 * A refusal is -1, and once the module is lowered to a memory of 32 bits, 2^32 - 1. */
static bool is_grown(size_t had, size_t more) { return __builtin_wasm_memory_grow(0, more) == had; }

/* Grows the memory by a free block of at least this size. */
static bool grow(size_t size) {
    size_t had = __builtin_wasm_memory_size(0);
    size_t needed = (size + UNIT + PAGE - 1) / PAGE, eighth = had / 8;
    /* More than is needed, so that the memory grows seldom; or else what is needed. */
    if (!(eighth > needed && is_grown(had, eighth)) && !is_grown(had, needed))
        return false;
    if (!end)
        end = block_of(
            (void *)(((size_t)&__heap_base + sizeof(size_t) + UNIT - 1) & ~(size_t)(UNIT - 1)));
    block *grown = end;
    end = block_of((void *)(__builtin_wasm_memory_size(0) * PAGE));
    end->head = 0;
    grown->head |= (size_t)((uint8_t *)end - (uint8_t *)grown);
    free_block(grown);
    return true;
}

/* Takes a block of a number of bytes. Returns null if memory ran out. */
void *allocate(size_t bytes) {
    if (bytes > MOST)
        return nullptr;
    size_t size = size_for(bytes), wanted = class_from(size);
    block *found = find(wanted);
    if (!found) {
        if (!grow(wanted))
            return nullptr;
        found = find(wanted);
    }
    take_out(found);
    keep(found, size);
    return bytes_of(found);
}

/* Gives back a block that was taken. */
void release(void *bytes) { free_block(block_of(bytes)); }

/* Gives a block another size, and keeps its first bytes. It may move. Returns null if memory ran out:
 * then the block is unchanged. */
static void *resize(void *bytes, size_t kept, size_t wanted) {
    if (wanted > MOST)
        return nullptr;
    size_t size = size_for(wanted);
    block *it = block_of(bytes), *next = after(it);
    if (size_of(it) < size && next->head & FREE && size_of(it) + size_of(next) >= size) {
        take_out(next);
        it->head += size_of(next);
    }
    if (size_of(it) >= size) {
        keep(it, size);
        return bytes;
    }
    void *moved = allocate(wanted);
    if (moved) {
        __builtin_memcpy(moved, bytes, kept);
        release(bytes);
    }
    return moved;
}

/* What the engine calls, in place of the toolchain's calls of malloc, realloc and free. The last
 * number of the first two is an alignment, which is at most 16. */

typedef struct tried {
    size_t ok;
    void *bytes;
} tried;

/* The pointer in a refusal, in place of null. */
static uint8_t nothing;

static tried tried_for(void *bytes) {
    return (tried){.ok = bytes != nullptr, .bytes = bytes ? bytes : &nothing};
}

tried rattle_alloc(size_t bytes, size_t) { return tried_for(allocate(bytes)); }

tried rattle_realloc(void *bytes, size_t kept, size_t wanted, size_t) {
    return tried_for(resize(bytes, kept, wanted));
}

void rattle_dealloc(void *bytes) { release(bytes); }

/* What compilers call: each is one instruction. */

void *memcpy(void *to, const void *from, size_t count) { return __builtin_memcpy(to, from, count); }

void *memmove(void *to, const void *from, size_t count) {
    return __builtin_memmove(to, from, count);
}

void *memset(void *to, int byte, size_t count) { return __builtin_memset(to, byte, count); }
