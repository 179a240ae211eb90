/* The heap of the program in the page, in place of the C library's: three functions that the program's allocator calls, and one
   by which the page takes room for what it hands over. A block has its size before it. What is given back goes to a list of its
   size class, a power of two, and is taken from there first; the page makes a new memory for each request, so nothing has to be
   given back to the system. */
/* The toolchain's clang has no headers. */
typedef __SIZE_TYPE__ size_t;
typedef __UINT64_TYPE__ uint64_t;

#define NONE ((void *)0)
#define PAGE 65536UL
#define CLASSES 48

extern unsigned char __heap_base;

/* Both are read as whole words. */
struct answer {
    uint64_t is_there;
    void *place;
};

struct block {
    uint64_t class;
    struct block *next;
};

static struct block *lists[CLASSES];
static unsigned char *front;

static void *take(size_t bytes) {
    uint64_t class = 5;
    while (class < CLASSES && (1UL << class) < bytes + sizeof(struct block)) class++;
    if (class == CLASSES) return NONE;
    struct block *found = lists[class];
    if (found) {
        lists[class] = found->next;
        return found + 1;
    }
    if (!front) front = (unsigned char *)(((size_t)&__heap_base + 31) & ~31UL);
    size_t end = (size_t)front + (1UL << class), have = __builtin_wasm_memory_size(0) * PAGE;
    if (end > have && __builtin_wasm_memory_grow(0, (end - have + PAGE - 1) / PAGE + 16) == ~0UL) return NONE;
    found = (struct block *)front;
    front += 1UL << class;
    found->class = class;
    return found + 1;
}

static void give(void *place) {
    struct block *block = (struct block *)place - 1;
    block->next = lists[block->class];
    lists[block->class] = block;
}

static struct answer answer(void *place) { return (struct answer){place != NONE, place ? place : &lists}; }

/* Blocks begin at a multiple of 16, which is the greatest alignment that the program asks for. */
struct answer rattle_alloc(size_t bytes, size_t alignment) { return answer(alignment <= 16 ? take(bytes) : NONE); }

struct answer rattle_realloc(void *place, size_t kept, size_t bytes, size_t alignment) {
    struct block *block = (struct block *)place - 1;
    if (alignment > 16) return answer(NONE);
    if (bytes + sizeof(struct block) <= 1UL << block->class) return answer(place);
    void *found = take(bytes);
    if (found) {
        __builtin_memcpy(found, place, kept < bytes ? kept : bytes);
        give(place);
    }
    return answer(found);
}

void rattle_dealloc(void *place) { give(place); }

/* Room for a file, a text or words; none where memory is full. */
void *page_take(size_t bytes) { return take(bytes); }
