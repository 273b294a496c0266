/* Eight threads parse a file at once, each a hundred times: each time the text is that of the first parse. */
#include "ipg.h"
#include <pthread.h>
#include <stdio.h>
#include <stdlib.h>
#include <string.h>

enum { THREADS = 8, TIMES = 100, ROOM = 1 << 16 };

static unsigned char input[1 << 16];
static size_t input_size;
static unsigned char due[ROOM];
static uint64_t due_size;

static uint8_t parse(unsigned char *room, uint64_t *size) {
  ipg_bytes words[] = {IPG_TEXT("parse"), IPG_TEXT("@gif"), IPG_TEXT("input")};
  ipg_file files[] = {{IPG_TEXT("input"), {input, input_size}}};
  return ipg_run(words, 3, files, 1, room, ROOM, size);
}

static void *work(void *failed) {
  unsigned char *room = malloc(ROOM);
  for (int k = 0; k < TIMES; k++) {
    uint64_t size = 0;
    if (!room || parse(room, &size) != IPG_DONE || size != due_size || memcmp(room, due, size)) *(int *)failed = 1;
  }
  free(room);
  return NULL;
}

int main(void) {
  pthread_t threads[THREADS];
  int failed[THREADS] = {0}, any = 0;
  input_size = fread(input, 1, sizeof input, stdin);
  if (parse(due, &due_size) != IPG_DONE || due_size > ROOM) return 1;
  for (int k = 0; k < THREADS; k++) pthread_create(&threads[k], NULL, work, &failed[k]);
  for (int k = 0; k < THREADS; k++) pthread_join(threads[k], NULL);
  for (int k = 0; k < THREADS; k++) any |= failed[k];
  return any;
}
