// What the proved code calls on wasm64, where there is no C library: the three functions of the kit's libc/src/heap.rt.
// A block has 2^k bytes, of which the first 16 keep k, and each k has a list of the free ones. New blocks come from the
// end of the memory. Nothing proves this file: it stands where malloc, realloc and free of the C library stand elsewhere.
typedef unsigned long long u64;
typedef struct {
    u64 ok;
    void *p;
} Tried;

enum { HEAD = 16, LEAST = 5, MOST = 40 };

extern char __heap_base;
static u64 end;
static void *free_of[MOST + 1];
// Where memory ran out the pointer is read by nobody, but isn't null.
static u64 nothing[2];

// Has the memory reach up to an address: a quarter more than there is, or else what is needed.
static int grows_to(u64 address) {
    u64 has = (u64)__builtin_wasm_memory_size(0) << 16;
    if (address <= has) return 1;
    u64 needed = (address - has + 65535) >> 16, more = has >> 18;
    if (more > needed && __builtin_wasm_memory_grow(0, more) != (u64)-1) return 1;
    return __builtin_wasm_memory_grow(0, needed) != (u64)-1;
}

static void *block(u64 n) {
    int k = LEAST;
    if (n > ((u64)1 << MOST) - HEAD) return 0;
    while ((u64)1 << k < n + HEAD) k++;
    void *p = free_of[k];
    if (p) {
        free_of[k] = *(void **)p;
        return p;
    }
    if (end == 0) end = ((u64)&__heap_base + 15) & ~(u64)15;
    if (!grows_to(end + ((u64)1 << k))) return 0;
    u64 *head = (u64 *)end;
    end += (u64)1 << k;
    head[0] = k;
    return head + HEAD / sizeof(u64);
}

// Each block lies at a multiple of 16, and each `align` divides that.
Tried rattle_alloc(u64 n, u64 align) {
    void *p = block(n);
    Tried tried = {p != 0, p ? p : nothing};
    return tried;
}

void rattle_dealloc(void *p) {
    u64 k = ((u64 *)p)[-2];
    *(void **)p = free_of[k];
    free_of[k] = p;
}

Tried rattle_realloc(void *p, u64 kept, u64 n, u64 align) {
    Tried tried = {1, p};
    if (n + HEAD <= (u64)1 << ((u64 *)p)[-2]) return tried;
    tried = rattle_alloc(n, align);
    if (tried.ok) {
        __builtin_memcpy(tried.p, p, kept);
        rattle_dealloc(p);
    }
    return tried;
}

// What the page calls.
unsigned answer_of(unsigned command, const void *job, u64 size, void *out, u64 room, u64 *count);

__attribute__((export_name("room"))) void *page_room(u64 n) { return block(n); }
__attribute__((export_name("answer_of"))) unsigned page_answer(unsigned command, const void *job, u64 size, void *out, u64 room, u64 *count) {
    return answer_of(command, job, size, out, room, count);
}
