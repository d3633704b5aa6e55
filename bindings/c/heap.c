/* The heap of the library on processors for which the toolchain has no compiled one: three functions over malloc, realloc and
 * free. They are not proved. malloc aligns to 16 bytes, which is enough for every type in the library. */
#include <stddef.h>
#include <stdint.h>
#include <stdlib.h>

/* A block of memory, or no block. The pointer of no block is not read, but must not be null. */
typedef struct {
    uint8_t found;
    void *bytes;
} block;

static char none;

static block block_of(void *bytes) {
    return bytes ? (block){1, bytes} : (block){0, &none};
}

block rattle_alloc(size_t size, size_t alignment) {
    return block_of(malloc(size ? size : alignment));
}

block rattle_realloc(void *bytes, size_t old_size, size_t size, size_t alignment) {
    (void)old_size;
    return block_of(realloc(bytes, size ? size : alignment));
}

void rattle_dealloc(void *bytes, size_t size, size_t alignment) {
    (void)size, (void)alignment;
    free(bytes);
}
