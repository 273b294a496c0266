/* Calls at the edges: no words, no files, words that are no text, a room too small, of nothing, and a name that no file has. */
#include "ipg.h"
#include <stdio.h>
#include <stdlib.h>
#include <string.h>

static int failed;

static void expect(const char *what, int is_so) {
  if (!is_so) {
    printf("library: %s\n", what);
    failed = 1;
  }
}

/* Trees: rooms too small, a refused grammar, inputs with a tree and without. */
static void trees(void) {
  static const char text[] = "S -> \"a\" many T ; T -> U16BE {n = U16BE.val} ;";
  const unsigned char *grammar = (const unsigned char *)text;
  size_t long_ = sizeof text - 1;
  ipg_bytes inputs[] = {IPG_TEXT("a\1\2"), IPG_NONE, IPG_TEXT("a")};
  ipg_answer answers[4];
  ipg_row rows[8];
  unsigned char room[16];
  uint64_t length = 1;

  memset(answers, 9, sizeof answers);
  expect("trees", ipg_trees(grammar, long_, inputs, 3, answers, 4, rows, 8, &length) == IPG_DONE && length == 9);
  expect("answers", answers[0].status == IPG_DONE && answers[0].rows == 6 && answers[1].status == IPG_NO_PARSE && answers[1].rows == 0 &&
                        answers[2].rows == 3 && answers[3].rows == 0x0909090909090909);
  expect("a node", rows[0].kind == IPG_NODE && rows[0].of == IPG_OF_RULE && rows[0].name == 0 && rows[0].to == 3 && rows[0].end == 3);
  expect("a repetition of a rule", rows[2].kind == IPG_REPETITION && rows[2].of == IPG_OF_RULE && rows[2].name == 1 && rows[2].depth == 1);
  expect("an attribute", rows[4].kind == IPG_ATTRIBUTE && rows[4].value == 258 && rows[4].depth == 2 && rows[4].of == IPG_OF_ATTRIBUTE);
  expect("a number", rows[5].kind == IPG_NUMBER && rows[5].name == 2 && rows[5].low == 258 && rows[5].from == 1 && rows[5].depth == 3);
  memset(rows, 9, sizeof rows);
  expect("rooms too small", ipg_trees(grammar, long_, inputs, 3, answers, 1, rows, 1, &length) == IPG_DONE && length == 9);
  expect("what is behind a room stays", rows[0].kind == IPG_NODE && rows[1].kind == 0x09090909);
  expect("no inputs", ipg_trees(grammar, long_, inputs, 0, answers, 0, rows, 0, &length) == IPG_DONE && length == 0);
  expect("a refused grammar", ipg_trees(grammar, long_ - 1, inputs, 3, answers, 4, rows, 8, &length) == IPG_REFUSED && length == 0);
  expect("names", ipg_names(grammar, long_, room, sizeof room, &length) == IPG_DONE && length == 11 && !memcmp(room, "S\nT\n\nn\nval\n", 11));
  expect("names in no room", ipg_names(grammar, long_, room, 0, &length) == IPG_DONE && length == 11);
  size_t most = ((size_t)1 << 30) + 1;
  unsigned char *large = calloc(most, 1);
  ipg_bytes large_input[] = {{large, most}};
  if (large)
    expect("an input that is too large", ipg_trees(grammar, long_, large_input, 1, answers, 1, rows, 8, &length) == IPG_DONE &&
                                             answers[0].status == IPG_TOO_LARGE && answers[0].rows == 0 && length == 0);
  free(large);
  expect("names of a built-in grammar", ipg_names((const unsigned char *)"@gif", 4, room, 4, &length) == IPG_DONE && !memcmp(room, "Gif\n", 4));
}

int main(void) {
  unsigned char room[256];
  uint64_t size = 0;
  ipg_bytes none[] = {IPG_NONE}, torn[] = {{(const unsigned char *)"\xff", 1}};
  ipg_bytes fmt[] = {IPG_TEXT("fmt"), IPG_TEXT("g")}, parse[] = {IPG_TEXT("parse"), IPG_TEXT("g"), IPG_TEXT("in")};
  ipg_file files[] = {{IPG_TEXT("g"), IPG_TEXT("S -> \"a\" ;")}, {IPG_TEXT("in"), IPG_TEXT("a")}, {IPG_TEXT("in"), IPG_TEXT("b")}};
  ipg_file torn_name[] = {{{(const unsigned char *)"\xff", 1}, IPG_TEXT("S -> \"a\" ;")}};

  none[0] = IPG_NONE;
  expect("texts are expressions", IPG_TEXT("two").size == 3 && none[0].size == 0 && none[0].at);
  expect("no words are `usage`", ipg_run(none, 0, files, 0, room, sizeof room, &size) == IPG_USAGE);
  expect("an empty word is `usage`", ipg_run(none, 1, files, 0, room, sizeof room, &size) == IPG_USAGE);
  expect("a word that is no text is `usage`", ipg_run(torn, 1, files, 0, room, sizeof room, &size) == IPG_USAGE);
  expect("a name that no file has", ipg_run(fmt, 2, torn_name, 1, room, sizeof room, &size) == IPG_NO_FILE);
  expect("no files", ipg_run(fmt, 2, files, 0, room, sizeof room, &size) == IPG_NO_FILE);

  expect("a text", ipg_run(fmt, 2, files, 1, room, sizeof room, &size) == IPG_DONE && size == 11 && !memcmp(room, "S -> \"a\" ;\n", 11));
  memset(room, '.', sizeof room);
  expect("a room too small", ipg_run(fmt, 2, files, 1, room, 4, &size) == IPG_DONE && size == 11 && !memcmp(room, "S ->....", 8));
  expect("a room of nothing", ipg_run(fmt, 2, files, 1, room, 0, &size) == IPG_DONE && size == 11 && !memcmp(room, "S ->....", 8));
  expect("the first of a name counts", ipg_run(parse, 3, files, 3, room, sizeof room, &size) == IPG_DONE);
  trees();
  return failed;
}
