/* The memory of the WebAssembly module. The host lays what it passes from laz_host_start() on, calls laz_host_end(END)
 * to say where that ends, and the calls of las.h take their memory from there on. They free all that they took before
 * they return, so the heap begins anew when nothing is out. */
typedef unsigned long long u64;
typedef unsigned long address; /* as wide as a pointer: 32 bits */

/* No block ends past this place, one page below 2^32. */
#define MOST ((address)4294901760)

/* What the compiled code is answered: whether there is memory, and where. If there is none, it is a place of a byte. */
struct tried {
    u64 ok;
    u64 place;
};

extern unsigned char __heap_base;

static address start, next, last;
static u64 out;
static unsigned char nothing;

/* Whether the memory reaches to `end`, grown if it must be. */
static int reaches(address end)
{
    address pages = (end - 1) / 65536 + 1, now = __builtin_wasm_memory_size(0);
    if (pages > now)
        __builtin_wasm_memory_grow(0, pages - now);
    return pages <= __builtin_wasm_memory_size(0);
}

u64 laz_host_start(void)
{
    return ((address)&__heap_base + 15) & ~(address)15;
}

/* 1 if the memory reaches to `end`, which is at least laz_host_start(). */
unsigned laz_host_end(u64 end)
{
    if (end > MOST - 16 || !reaches((address)end))
        return 0;
    start = next = ((address)end + 15) & ~(address)15;
    last = 0;
    out = 0;
    return 1;
}

static struct tried answer(address place)
{
    return place != 0 ? (struct tried){1, place} : (struct tried){0, (address)&nothing};
}

/* Ends the block at `from` after this many bytes, if there is room. */
static int ends(address from, u64 size)
{
    if (from > MOST || size > MOST - from || !reaches(from + (address)size))
        return 0;
    last = from;
    next = (from + (address)size + 15) & ~(address)15;
    return 1;
}

static address taken(u64 size)
{
    address from = next;
    if (!ends(from, size == 0 ? 1 : size))
        return 0;
    out++;
    return from;
}

struct tried rattle_alloc(u64 size, u64 alignment)
{
    (void)alignment; /* at most 16 */
    return answer(taken(size));
}

struct tried rattle_realloc(unsigned char *block, u64 kept, u64 size, u64 alignment)
{
    address other;
    (void)alignment;
    if (size == 0)
        size = 1;
    if ((address)block == last)
        return answer(ends(last, size) ? last : 0);
    other = taken(size);
    if (other != 0) {
        __builtin_memcpy((void *)other, block, (address)kept);
        out--;
    }
    return answer(other);
}

void rattle_dealloc(unsigned char *block)
{
    if ((address)block == last) {
        next = last;
        last = 0;
    }
    if (--out == 0)
        next = start;
}
