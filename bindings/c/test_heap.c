/* Tests of the three functions of a heap: those of heap.c, or those that come with `rt` for x86-64. They are linked with
 * --wrap=malloc,--wrap=realloc,--wrap=free, so that the tests see each call, and can make it fail. It prints what the functions
 * return, apart from addresses, so that the outputs of two heaps can be compared. */
#include <stddef.h>
#include <stdint.h>
#include <stdio.h>
#include <stdlib.h>
#include <string.h>

typedef struct {
    uint8_t found;
    void *bytes;
} block;

block rattle_alloc(size_t size, size_t alignment);
block rattle_realloc(void *bytes, size_t old_size, size_t size, size_t alignment);
void rattle_dealloc(void *bytes, size_t size, size_t alignment);

void *__real_malloc(size_t size);
void *__real_realloc(void *bytes, size_t size);
void __real_free(void *bytes);

static int fails, failures;
static size_t asked;
static void *given, *freed;

void *__wrap_malloc(size_t size) {
    asked = size;
    return fails ? NULL : __real_malloc(size);
}

void *__wrap_realloc(void *bytes, size_t size) {
    given = bytes;
    asked = size;
    return fails ? NULL : __real_realloc(bytes, size);
}

void __wrap_free(void *bytes) {
    freed = bytes;
    __real_free(bytes);
}

static void holds(int fact, const char *what) {
    printf("%s: %s\n", fact ? "so" : "NOT SO", what);
    failures += !fact;
}

int main(void) {
    setvbuf(stdout, NULL, _IONBF, 0);
    holds(sizeof(block) == 16 && offsetof(block, bytes) == 8, "a block is a byte and a pointer");

    block one = rattle_alloc(24, 8);
    holds(one.found == 1 && asked == 24, "alloc calls malloc with the size");
    holds((uintptr_t)one.bytes % 16 == 0, "the block is aligned to 16 bytes");
    memset(one.bytes, 0x5a, 24);

    block two = rattle_realloc(one.bytes, 24, 5000, 8);
    holds(two.found == 1 && given == one.bytes && asked == 5000, "realloc calls realloc with the block and the new size");
    int same = 1;
    for (int i = 0; i < 24; i++) same &= ((uint8_t *)two.bytes)[i] == 0x5a;
    holds(same, "the bytes of the block are kept");

    fails = 1;
    block none = rattle_realloc(two.bytes, 5000, 9000, 8);
    holds(none.found == 0 && none.bytes != NULL, "a realloc that fails returns no block, and a pointer that is not null");
    holds(((uint8_t *)two.bytes)[0] == 0x5a, "the old block is kept");
    none = rattle_alloc(24, 8);
    holds(none.found == 0 && none.bytes != NULL, "an alloc that fails returns no block, and a pointer that is not null");
    fails = 0;

    block empty = rattle_alloc(0, 8);
    holds(empty.found == 1 && asked == 8, "an alloc of no bytes asks malloc for `alignment` bytes");
    block still = rattle_realloc(empty.bytes, 8, 0, 4);
    holds(still.found == 1 && asked == 4, "a realloc to no bytes asks for `alignment` bytes");

    rattle_dealloc(two.bytes, 5000, 8);
    holds(freed == two.bytes, "dealloc calls free with the block");
    rattle_dealloc(still.bytes, 0, 4);
    holds(freed == still.bytes, "dealloc frees a block of no bytes");
    return failures != 0;
}
