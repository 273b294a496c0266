/* What the program and the library ask of Linux for memory, by the C library's own. */
#include <stdint.h>
#include <stdlib.h>

/* A request's answer comes back in two registers: whether it was met, and a pointer that is never null. */
typedef struct {
  uint64_t ok;
  void *at;
} tried;
static char nowhere;

static tried answer(void *at) { return at ? (tried){1, at} : (tried){0, &nowhere}; }

/* Contract of `rattle_alloc`: new memory of n bytes, aligned at any divisor of 16, which malloc's is. Of none it takes `align`, so that
 * each block has a place of its own. It may be refused. */
tried rattle_alloc(size_t n, size_t align) { return answer(malloc(n ? n : align)); }

/* Contract of `rattle_realloc`: a block of n bytes with the first `kept` bytes of the old one. Where it is refused, the old one stays.
 * Of none it takes `align`: realloc(at, 0) would free the block, and the program would free it again. */
tried rattle_realloc(void *at, size_t kept, size_t n, size_t align) {
  (void)kept;
  return answer(realloc(at, n ? n : align));
}

/* Contract of `rattle_dealloc`: gives back what one of the two answered. */
void rattle_dealloc(void *at) { free(at); }
