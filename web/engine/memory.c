// What the module takes from its host: memory from a heap that is dlmalloc (wasi-libc), and room for what is handed in.
typedef unsigned long long u64;
typedef unsigned long size_t;
void *malloc(size_t);
void *realloc(void *, size_t);
void *aligned_alloc(size_t, size_t);
void free(void *);

struct Tried {
    u64 ok;
    u64 at;
};

// Blocks of 2 GiB and more are refused: a length of 64 bits must not lose any.
#define MOST 0x7fff0000ull
#define ALIGN_MOST 65536
#define ALIGN_OF_MALLOC 16

static struct Tried tried(void *at) {
    struct Tried t = {at != 0, (u64)(size_t)at};
    return t;
}

static void *room_of(u64 size, u64 align) {
    if (size > MOST || align > ALIGN_MOST) return 0;
    if (align > ALIGN_OF_MALLOC) return aligned_alloc(align, (size + align - 1) & -align);
    return malloc(size ? size : 1);
}

struct Tried rattle_alloc(u64 size, u64 align) { return tried(room_of(size, align)); }

struct Tried rattle_realloc(void *old, u64 kept, u64 size, u64 align) {
    if (size > MOST) return tried(0);
    if (align <= ALIGN_OF_MALLOC) return tried(realloc(old, size ? size : 1));
    void *at = room_of(size, align);
    if (at) {
        __builtin_memcpy(at, old, kept < size ? kept : size);
        free(old);
    }
    return tried(at);
}

void rattle_dealloc(void *at) { free(at); }

// Room for so many bytes, or 0.
__attribute__((export_name("room"))) void *room(size_t size) { return room_of(size, 1); }
