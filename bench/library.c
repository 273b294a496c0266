/* The library on many small inputs: library COUNT GRAMMAR FILE parses the file COUNT times by one call and goes over all rows; with the word
 * `run` behind these, by a call of the whole command line each. Prints what the rows or the texts add up to. */
#include "ipg.h"
#include <stdio.h>
#include <stdlib.h>
#include <string.h>

static int by_rows(size_t count, const char *grammar, ipg_bytes input) {
  ipg_bytes *inputs = malloc(count * sizeof *inputs);
  ipg_answer *answers = malloc(count * sizeof *answers);
  uint64_t length = 1 << 10, sum = 0;
  ipg_row *rows = NULL;
  uint8_t status;
  for (size_t i = 0; inputs && i < count; i++) inputs[i] = input;
  ipg_trees((const unsigned char *)grammar, strlen(grammar), inputs, 1, answers, 1, (ipg_row[1]){{0}}, 1, &length);
  uint64_t room = length * count;
  rows = malloc(room * sizeof *rows + 1);
  if (!inputs || !answers || !rows) return 7;
  status = ipg_trees((const unsigned char *)grammar, strlen(grammar), inputs, count, answers, count, rows, room, &length);
  for (uint64_t i = 0; i < length; i++) sum += rows[i].kind + rows[i].depth + rows[i].to - rows[i].from;
  printf("%d %llu %llu\n", status, (unsigned long long)length, (unsigned long long)sum);
  free(inputs), free(answers), free(rows);
  return 0;
}

static int by_runs(size_t count, const char *grammar, ipg_bytes input) {
  ipg_bytes words[] = {IPG_TEXT("parse"), {(const unsigned char *)grammar, strlen(grammar)}, IPG_TEXT("input")};
  ipg_file files[] = {{IPG_TEXT("input"), input}};
  static unsigned char room[1 << 20];
  uint64_t size = 0, sum = 0;
  for (size_t i = 0; i < count; i++) sum += ipg_run(words, 3, files, 1, room, sizeof room, &size) + size;
  printf("%llu\n", (unsigned long long)sum);
  return 0;
}

int main(int count, char **words) {
  static unsigned char bytes[1 << 24];
  FILE *file = count >= 4 ? fopen(words[3], "rb") : NULL;
  if (!file) return 2;
  ipg_bytes input = {bytes, fread(bytes, 1, sizeof bytes, file)};
  size_t times = strtoul(words[1], NULL, 10);
  return count > 4 ? by_runs(times, words[2], input) : by_rows(times, words[2], input);
}
