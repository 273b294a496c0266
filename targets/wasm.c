/* What the library asks of its host where it is WebAssembly: memory, and nothing else. There is no import.
 *
 * Blocks lie one behind another from `__heap_base` on. Each has a head of 16 bytes: its size (whose lowest bit says that it is in use) and the
 * size of the block before it. Free blocks that touch are one. They stand in lists by the highest bit of their sizes; a request takes the
 * first that fits, and the rest of it stays free. What lies behind the last block is taken from the host by pages. */
#ifndef HEAP_TEST
typedef __SIZE_TYPE__ size_t;
typedef __UINT64_TYPE__ uint64_t;
extern unsigned char __heap_base;
#define HEAP_START ((size_t)&__heap_base)
static size_t held(void) { return __builtin_wasm_memory_size(0) << 16; }
static int hold(size_t pages) { return __builtin_wasm_memory_grow(0, pages) != (size_t)-1; }
#endif

typedef struct block {
  size_t size;                /* with the head; the lowest bit: in use */
  size_t before;              /* the size of the block before it, 0 of the first */
  struct block *next, *last;  /* of a free one: its neighbours in its list */
} block;

static const size_t LARGEST = (size_t)-1 / 2;
enum { HEAD = 16, LEAST = 32, USED = 1 };
static block *lists[64];
static block *end; /* behind the last block: its `before` alone is kept */

static size_t size_of(const block *it) { return it->size & ~(size_t)USED; }
static block *after(const block *it) { return (block *)((char *)it + size_of(it)); }
static block *before(const block *it) { return (block *)((char *)it - it->before); }
static int list_of(size_t size) { return 63 - __builtin_clzll(size); }

static void enlist(block *it) {
  block **list = &lists[list_of(it->size)];
  it->last = 0;
  it->next = *list;
  if (*list) (*list)->last = it;
  *list = it;
}

static void delist(block *it) {
  if (it->next) it->next->last = it->last;
  if (it->last) it->last->next = it->next;
  else lists[list_of(it->size)] = it->next;
}

static void set_size(block *it, size_t size) {
  it->size = size;
  after(it)->before = size;
}

/* Has the host hold what lies before this place, and room for a head behind it; a MiB more at least, where that is to be had. */
static int reach(size_t place) {
  size_t wanted = place + HEAD, have = held();
  if (wanted <= have) return 1;
  size_t pages = (wanted - have + 0xffff) >> 16;
  return (pages < 16 && hold(16)) || hold(pages);
}

/* Leaves `size` bytes to a block in use, and frees what is left of it where that is a block. */
static void trim(block *it, size_t size) {
  size_t rest = size_of(it) - size;
  if (rest < LEAST) return;
  set_size(it, size);
  it->size |= USED;
  block *left = after(it), *next = (block *)((char *)left + rest);
  if (next != end && !(next->size & USED)) {
    delist(next);
    rest += next->size;
  }
  set_size(left, rest);
  enlist(left);
}

/* A free block that fits, out of its list: from the list of its size the first that is large enough, else any of a list above. */
static block *find(size_t size) {
  int at = list_of(size);
  for (block *it = lists[at]; it; it = it->next)
    if (it->size >= size) return it;
  while (++at < 64)
    if (lists[at]) return lists[at];
  return 0;
}

/* A new block behind the last one, over that where it is free. */
static block *extend(size_t size) {
  if (!end) {
    size_t start = (HEAP_START + 15) & ~(size_t)15;
    if (!reach(start)) return 0;
    end = (block *)start;
    end->before = 0;
  }
  block *it = end;
  if (it->before && !(before(it)->size & USED)) it = before(it);
  size_t place = (size_t)it;
  if (size > LARGEST - place || !reach(place + size)) return 0;
  if (it != end) delist(it);
  end = (block *)(place + size);
  set_size(it, size);
  it->size |= USED;
  return it;
}

static size_t rounded(size_t n) {
  size_t size = (n + HEAD + 15) & ~(size_t)15;
  return size < n ? 0 : size < LEAST ? LEAST : size;
}

static void *take(size_t n) {
  size_t size = rounded(n);
  if (!size) return 0;
  block *it = find(size);
  if (it) {
    delist(it);
    it->size |= USED;
    trim(it, size);
  } else {
    it = extend(size);
  }
  return it ? (char *)it + HEAD : 0;
}

static void give(void *at) {
  block *it = (block *)((char *)at - HEAD);
  size_t size = size_of(it);
  block *next = after(it);
  if (next != end && !(next->size & USED)) {
    delist(next);
    size += next->size;
  }
  if (it->before && !(before(it)->size & USED)) {
    it = before(it);
    delist(it);
    size += it->size;
  }
  set_size(it, size);
  enlist(it);
}

/* Makes a block larger where it lies: over the free one behind it, or over what the host still has. */
static int grow(block *it, size_t size) {
  block *next = after(it);
  size_t have = size_of(it) + (next != end && !(next->size & USED) ? next->size : 0);
  int is_last = (char *)it + have == (char *)end;
  if (have < size && !(is_last && size <= LARGEST - (size_t)it && reach((size_t)it + size))) return 0;
  if (next != end && !(next->size & USED)) delist(next);
  if (have < size) {
    have = size;
    end = (block *)((char *)it + size);
  }
  set_size(it, have);
  it->size |= USED;
  trim(it, size);
  return 1;
}

typedef struct {
  uint64_t ok;
  void *at;
} tried;
static char nowhere;

static tried answer(void *at) {
  tried it = {at != 0, at ? at : &nowhere};
  return it;
}

/* Contract of `rattle_alloc`: new memory of n bytes, aligned at any divisor of 16; of none it takes `align`. It may be refused: then the
 * pointer isn't null either. */
tried rattle_alloc(size_t n, size_t align) { return answer(take(n ? n : align)); }

/* Contract of `rattle_dealloc`: gives back what this or the next answered. */
void rattle_dealloc(void *at) { give(at); }

/* Contract of `rattle_realloc`: a block of n bytes with the first `kept` bytes of the old one; where it is refused, the old one stays. */
tried rattle_realloc(void *at, size_t kept, size_t n, size_t align) {
  block *it = (block *)((char *)at - HEAD);
  size_t size = rounded(n ? n : align);
  if (!size) return answer(0);
  if (size <= size_of(it)) {
    trim(it, size);
    return answer(at);
  }
  if (grow(it, size)) return answer(at);
  void *fresh = take(n ? n : align);
  if (!fresh) return answer(0);
  __builtin_memcpy(fresh, at, kept);
  give(at);
  return answer(fresh);
}

/* For the host: memory in which it puts words, files and room for answers; null where it is refused. `size` isn't 0. */
void *ipg_room(size_t size) { return take(size); }

/* For the host: gives that back. */
void ipg_done(void *at) { give(at); }
