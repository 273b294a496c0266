/* The heap of wasm.c, tried on this machine: 200,000 requests by chance, each block with bytes of its own, which nobody else may touch. */
#include <stdint.h>
#include <stdio.h>
#include <stdlib.h>
#include <string.h>
#define HEAP_TEST
static unsigned char *arena;
static size_t held_now, most, refused;
#define HEAP_START ((size_t)arena)
static size_t held(void) { return (size_t)arena + held_now; }
static int hold(size_t pages) {
  if (held_now + (pages << 16) > most) return 0;
  held_now += pages << 16;
  return 1;
}
#include "wasm.c"

enum { BLOCKS = 500 };
static struct { unsigned char *at; size_t size; unsigned char sign; } blocks[BLOCKS];

static void want(int is_so, const char *what) {
  if (is_so) return;
  printf("heap: %s\n", what);
  exit(1);
}

static size_t chance(size_t below) {
  static uint64_t state = 1;
  state = state * 6364136223846793005u + 1442695040888963407u;
  return (size_t)(state >> 33) % below;
}

static void check(int i) {
  for (size_t k = 0; k < blocks[i].size; k++) want(blocks[i].at[k] == blocks[i].sign, "another's bytes");
}

/* Takes, changes or gives back one block. */
static void turn(int i) {
  size_t size = chance(4) ? chance(300) : chance(30000);
  if (!blocks[i].at) {
    tried it = rattle_alloc(size, 16);
    want(it.at != 0 && (size_t)it.at % 16 == 0, "alignment");
    if (!it.ok) {
      refused++;
      return;
    }
    blocks[i].at = it.at;
  } else {
    check(i);
    if (chance(2)) {
      rattle_dealloc(blocks[i].at);
      blocks[i].at = 0;
      blocks[i].size = 0;
      return;
    }
    size_t kept = size < blocks[i].size ? size : blocks[i].size;
    tried it = rattle_realloc(blocks[i].at, kept, size, 1);
    want(it.at != 0, "null");
    if (!it.ok) {
      refused++;
      return;
    }
    blocks[i].at = it.at;
    for (size_t k = 0; k < kept; k++) want(blocks[i].at[k] == blocks[i].sign, "bytes that were kept");
  }
  blocks[i].size = size;
  blocks[i].sign = (unsigned char)chance(256);
  memset(blocks[i].at, blocks[i].sign, size);
}

int main(void) {
  most = 1500 << 10; /* so that some requests are refused */
  arena = aligned_alloc(65536, most);
  for (int k = 0; k < 200000; k++) turn((int)chance(BLOCKS));
  for (int i = 0; i < BLOCKS; i++)
    if (blocks[i].at) check(i), rattle_dealloc(blocks[i].at);
  want(refused > 100, "too few requests were refused");
  want(end->before == (size_t)((unsigned char *)end - arena), "one free block is left");
  size_t all = end->before - HEAD;
  tried whole = rattle_alloc(all, 1);
  want(whole.ok && whole.at == arena + HEAD, "all of it in one block");
  want(!rattle_alloc(most, 1).ok && !rattle_alloc((size_t)-1, 1).ok && !rattle_alloc((size_t)-17, 1).ok, "too much is refused");
  want(!rattle_realloc(whole.at, all, (size_t)-40, 1).ok, "too much is refused to a block");
  rattle_dealloc(whole.at);
  puts("heap: 200,000 requests");
  return 0;
}
