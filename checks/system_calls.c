/* Prints what the calls answer that the program makes of the Rattle kit's C archives, for words, variables, errors and
 * memory, with room and without. Linked with the kit's archives or with c/system, which have to answer alike. */
#define _GNU_SOURCE
#include <stddef.h>
#include <stdint.h>
#include <stdio.h>
#include <string.h>

struct tried {
    _Bool ok;
    unsigned char *place;
};
struct tried rattle_alloc(size_t size, size_t align);
struct tried rattle_realloc(void *place, size_t kept, size_t size, size_t align);
void rattle_dealloc(void *place);
int rattle_errno(void);
void rattle_set_errno(int error);
size_t rattle_arg_count(void);
ptrdiff_t rattle_arg(size_t i, unsigned char *to, size_t room);
ptrdiff_t rattle_env(const char *name, unsigned char *to, size_t room);
ptrdiff_t rattle_env_at(size_t i, unsigned char *to, size_t room);

enum { ROOM = 64 };
static unsigned char bytes[ROOM];

/* The first word is the program's name, which differs. */
static void say(const char *what, size_t i, size_t room, ptrdiff_t answer) {
    printf("%s %zu %zu %td ", what, i, room, answer);
    for (size_t k = 0; k < ROOM; k++) printf("%02x", bytes[k]);
    puts("");
    memset(bytes, 0xaa, sizeof bytes);
}

static void texts(size_t room) {
    static const char *const names[] = {"A", "LONG", "B", "NONE", ""};
    for (size_t i = 1; i < 8; i++) say("word", i, room, rattle_arg(i, bytes, room));
    say("word", SIZE_MAX, room, rattle_arg(SIZE_MAX, bytes, room));
    for (size_t i = 0; i < 5; i++) say("variable", i, room, rattle_env(names[i], bytes, room));
    for (size_t i = 0; i < 5; i++) say("entry", i, room, rattle_env_at(i, bytes, room));
    say("entry", SIZE_MAX, room, rattle_env_at(SIZE_MAX, bytes, room));
}

static void memory(void) {
    static const size_t sizes[] = {0, 1, 16, 4096, 1 << 24, SIZE_MAX / 4};
    for (size_t i = 0; i < 6; i++) {
        struct tried it = rattle_alloc(sizes[i], 16);
        printf("alloc %zu %d %d\n", sizes[i], it.ok, it.place != NULL);
        if (!it.ok) continue;
        printf("at %d\n", (int)((uintptr_t)it.place % 16));
        it.place[0] = 7;
        struct tried more = rattle_realloc(it.place, 1, sizes[i] * 2, 16);
        printf("realloc %d %d %d\n", more.ok, more.place[0], (int)((uintptr_t)more.place % 16));
        struct tried refused = rattle_realloc(more.place, 1, SIZE_MAX / 4, 16);
        printf("realloc %d %d %d\n", refused.ok, refused.place != NULL, more.place[0]);
        rattle_dealloc(more.place);
    }
}

int main(void) {
    memset(bytes, 0xaa, sizeof bytes);
    printf("words %zu\n", rattle_arg_count());
    for (size_t room = 0; room <= ROOM; room += room < 2 ? 1 : 31) texts(room);
    memory();
    rattle_set_errno(28);
    printf("errno %d\n", rattle_errno());
    return 0;
}
