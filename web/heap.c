/* The heap of page.wasm: the three functions that the kit's std_heap calls, and two for the page itself, over the
 * module's memory, which grows. Not proved. A block has 2^k bytes, and its first 16 bytes keep k. A block that is
 * given back waits for the next request of its size. */
typedef unsigned long long u64;
typedef struct { u64 ok, at; } Tried; /* { bool, pointer } comes back as two words */

enum { HEAD = 16, SMALLEST = 5, PAGE = 65536 };
#define LARGEST ((u64)1 << 40)

extern unsigned char __heap_base;
static u64 top;       /* memory below is given out; 0 before the first request */
static u64 free_list[64]; /* for each k the first block that waits, or 0 */

static u64 class_of(u64 size) {
    u64 k = SMALLEST;
    while (((u64)1 << k) < size + HEAD) k++;
    return k;
}

/* Takes memory that no block had yet, or returns 0. */
static u64 from_top(u64 size) {
    if (!top) top = ((u64)&__heap_base + HEAD - 1) & ~(u64)(HEAD - 1);
    u64 has = (u64)__builtin_wasm_memory_size(0) * PAGE;
    if (top + size > has) {
        u64 pages = (top + size - has + PAGE - 1) / PAGE;
        /* A refusal is -1, of which a module that was lowered to 32-bit memory keeps the low half alone. */
        if ((unsigned)__builtin_wasm_memory_grow(0, pages) == (unsigned)-1) return 0;
    }
    u64 at = top;
    top += size;
    return at;
}

/* Room for this number of bytes, aligned to 16, or 0. */
void *page_room(u64 size) {
    if (size > LARGEST) return 0;
    u64 k = class_of(size), at = free_list[k];
    if (at) free_list[k] = *(u64 *)at;
    else at = from_top((u64)1 << k);
    if (!at) return 0;
    *(u64 *)at = k;
    return (void *)(at + HEAD);
}

void page_give(void *room) {
    u64 at = (u64)room - HEAD, k = *(u64 *)at;
    *(u64 *)at = free_list[k];
    free_list[k] = at;
}

Tried rattle_alloc(u64 size, u64 alignment) {
    u64 at = alignment > HEAD ? 0 : (u64)page_room(size);
    return (Tried){at != 0, at};
}

Tried rattle_realloc(void *room, u64 kept, u64 size, u64 alignment) {
    u64 k = *(u64 *)((u64)room - HEAD);
    if (size <= LARGEST && class_of(size) <= k) return (Tried){1, (u64)room};
    Tried got = rattle_alloc(size, alignment);
    if (!got.ok) return got;
    __builtin_memcpy((void *)got.at, room, kept < size ? kept : size);
    page_give(room);
    return got;
}

void rattle_dealloc(void *room) { page_give(room); }
