/* The calls for memory that the program and the library make of the Rattle kit's C archive liblibc_c.a. These stand for
 * it where the kit has no archive, on aarch64, and in static programs. The kit says what each does in
 * rattle/libc/src/heap.rt. A check compares them with the kit's own on x86-64. */
#include <stddef.h>
#include <stdlib.h>

/* Whether there was memory, and where it is. */
struct tried {
    _Bool ok;
    void *place;
};

/* The kit answers an address also if there is no memory: one that nothing is stored at. */
static unsigned char nothing[16] __attribute__((aligned(16)));

static struct tried answer(void *place) {
    struct tried it;
    it.ok = place != NULL;
    it.place = place ? place : nothing;
    return it;
}

/* As the kit's: malloc, of `align` bytes if none are wanted. `align` divides 16, which malloc's alignment is. */
struct tried rattle_alloc(size_t size, size_t align) { return answer(malloc(size ? size : align)); }

/* As the kit's: realloc, by the same rule. `kept` is for the contract alone. */
struct tried rattle_realloc(void *place, size_t kept, size_t size, size_t align) {
    (void)kept;
    return answer(realloc(place, size ? size : align));
}

/* As the kit's: free. */
void rattle_dealloc(void *place) { free(place); }
