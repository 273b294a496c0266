/* For library.py: runs commands by the library. Standard input has, for each command, how many words, the words, how many files, and of each its
 * name and its bytes; standard output gets each status and its text. A number has eight bytes, the low one first; before bytes stands their number. */
#include "ipg.h"
#include <stdio.h>
#include <stdlib.h>
#ifdef _WIN32
#include <fcntl.h>
#include <io.h>
static void no_translation(void) { _setmode(0, _O_BINARY), _setmode(1, _O_BINARY); }
#else
static void no_translation(void) {}
#endif

enum { MOST = 64, ROOM = 1 << 22 };

static void fail(const char *what) {
  fprintf(stderr, "library_runs: %s\n", what);
  exit(99);
}

static uint64_t number(void) {
  uint64_t value;
  if (fread(&value, sizeof value, 1, stdin) != 1) fail("the input ends");
  return value;
}

static ipg_bytes bytes(void) {
  size_t size = number();
  unsigned char *at = malloc(size + 1);
  if (!at || fread(at, 1, size, stdin) != size) fail("the input ends");
  return (ipg_bytes){at, size};
}

static void drop(ipg_bytes it) { free((void *)(uintptr_t)it.at); }

static void answer(uint64_t status, const unsigned char *text, uint64_t size) {
  if (fwrite(&status, 8, 1, stdout) != 1 || fwrite(&size, 8, 1, stdout) != 1 || fwrite(text, 1, size, stdout) != size) fail("no output");
}

static void run(uint64_t word_count) {
  static unsigned char room[ROOM];
  ipg_bytes words[MOST];
  ipg_file files[MOST];
  if (word_count > MOST) fail("too many words");
  for (size_t k = 0; k < word_count; k++) words[k] = bytes();
  uint64_t file_count = number(), size = 0;
  if (file_count > MOST) fail("too many files");
  for (size_t k = 0; k < file_count; k++) files[k] = (ipg_file){bytes(), bytes()};
  uint8_t status = ipg_run(words, word_count, files, file_count, room, sizeof room, &size);
  unsigned char *text = size > sizeof room ? malloc(size) : room;
  if (!text) fail("no memory");
  if (text != room) status = ipg_run(words, word_count, files, file_count, text, size, &size);
  answer(status, text, size);
  if (text != room) free(text);
  for (size_t k = 0; k < word_count; k++) drop(words[k]);
  for (size_t k = 0; k < file_count; k++) drop(files[k].name), drop(files[k].bytes);
}

int main(void) {
  uint64_t word_count;
  no_translation();
  while (fread(&word_count, sizeof word_count, 1, stdin) == 1) run(word_count);
  return 0;
}
