// The heap of `yettuvam.wasm`, and the few functions that the compiler's own library would give.
// A block's size is a power of two, and free blocks lie in a list for each.
typedef unsigned long u64;
typedef struct { u64 is_given; void *block; } Given;

enum { LEAST = 16, HEAD = 16, CLASSES = 48, PAGE_BITS = 16, MOST_BITS = 40 };

extern unsigned char __heap_base;
static u64 top, end;
static void *freed[CLASSES];

static int class_of(u64 size) {
    if (size < LEAST) size = LEAST;
    return 64 - __builtin_clzl(size - 1);
}

// Moves the end of the memory, so that there are so many more bytes from the top on.
static int grow(u64 size) {
    if (!top) {
        top = ((u64)&__heap_base + 15) & ~15ul;
        end = (u64)__builtin_wasm_memory_size(0) << PAGE_BITS;
    }
    if (top + size <= end) return 1;
    u64 more = (top + size - end + (1ul << PAGE_BITS) - 1) >> PAGE_BITS;
    if (more < 16) more = 16;
    if (__builtin_wasm_memory_grow(0, more) == (u64)-1) return 0;
    end = (u64)__builtin_wasm_memory_size(0) << PAGE_BITS;
    return 1;
}

static void *take(u64 size) {
    if (size > 1ul << MOST_BITS) return 0;
    int class = class_of(size);
    if (freed[class]) {
        void *block = freed[class];
        freed[class] = *(void **)block;
        return block;
    }
    u64 whole = (1ul << class) + HEAD;
    if (!grow(whole)) return 0;
    u64 *head = (u64 *)top;
    top += whole;
    head[0] = class;
    return head + 2;
}

static u64 class_at(void *block) { return ((u64 *)block)[-2]; }

static void give(void *block) {
    u64 class = class_at(block);
    *(void **)block = freed[class];
    freed[class] = block;
}

// What the library asks for.
Given rattle_alloc(u64 size, u64 alignment) {
    void *block = take(size);
    return (Given){block != 0, block};
}

Given rattle_realloc(void *block, u64 kept, u64 size, u64 alignment) {
    u64 room = 1ul << class_at(block);
    if (size <= room && size * 4 >= room) return (Given){1, block};
    void *other = take(size);
    if (!other) return (Given){0, block};
    __builtin_memcpy(other, block, kept < size ? kept : size);
    give(block);
    return (Given){1, other};
}

void rattle_dealloc(void *block) { give(block); }

// Memory for the page.
void *page_take(u64 size) { return take(size); }
void page_give(void *block) { give(block); }

// ---- numbers of 128 bits, in halves

typedef union { unsigned __int128 whole; struct { u64 low, high; } half; } Wide;

__int128 __multi3(__int128 x, __int128 y) {
    Wide a, b, product;
    a.whole = (unsigned __int128)x;
    b.whole = (unsigned __int128)y;
    u64 al = (unsigned)a.half.low, ah = a.half.low >> 32, bl = (unsigned)b.half.low, bh = b.half.low >> 32;
    u64 low = al * bl, left = al * bh, right = ah * bl;
    u64 middle = (low >> 32) + (unsigned)left + (unsigned)right;
    product.half.low = (middle << 32) | (unsigned)low;
    product.half.high = ah * bh + (left >> 32) + (right >> 32) + (middle >> 32);
    product.half.high += a.half.low * b.half.high + a.half.high * b.half.low;
    return (__int128)product.whole;
}

static void shift(Wide *number, u64 bit) {
    number->half.high = (number->half.high << 1) | (number->half.low >> 63);
    number->half.low = (number->half.low << 1) | bit;
}

// The quotient, bit by bit, and what is left.
static Wide divided(unsigned __int128 number, unsigned __int128 by, Wide *rest) {
    Wide n, d, quotient;
    n.whole = number;
    d.whole = by;
    quotient.whole = 0;
    rest->whole = 0;
    for (int i = 0; i < 128; i++) {
        shift(rest, n.half.high >> 63);
        shift(&n, 0);
        int fits = rest->half.high > d.half.high || (rest->half.high == d.half.high && rest->half.low >= d.half.low);
        shift(&quotient, fits);
        if (!fits) continue;
        u64 borrow = rest->half.low < d.half.low;
        rest->half.low -= d.half.low;
        rest->half.high -= d.half.high + borrow;
    }
    return quotient;
}

unsigned __int128 __udivti3(unsigned __int128 number, unsigned __int128 by) {
    Wide rest;
    return divided(number, by, &rest).whole;
}

unsigned __int128 __umodti3(unsigned __int128 number, unsigned __int128 by) {
    Wide rest;
    divided(number, by, &rest);
    return rest.whole;
}
