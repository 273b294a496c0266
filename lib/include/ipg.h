/* ipg: the proved parser, in the program that needs it.
 *
 * `ipg_run` runs the whole command line over words and files in memory, and puts its text into memory of the caller's.
 * `ipg_trees` parses many inputs by one grammar, and puts their trees there as rows of numbers; `ipg_names` has the names for these.
 * Nothing is printed, no file is opened, no state is kept between calls, and the process is never ended.
 *
 *   ipg_bytes words[] = {IPG_TEXT("parse"), IPG_TEXT("@gif"), IPG_TEXT("input")};
 *   ipg_file files[] = {{IPG_TEXT("input"), {gif, gif_size}}};
 *   unsigned char room[65536];
 *   uint64_t size;
 *   uint8_t status = ipg_run(words, 3, files, 1, room, sizeof room, &size);
 */
#ifndef IPG_H
#define IPG_H

/* The program's, as `ipg version` tells it. */
#define IPG_VERSION "0.1.0"

#include <stddef.h>
#include <stdint.h>

#ifdef __cplusplus
extern "C" {
#endif

/* Bytes of the caller's. `at` isn't null, not even where `size` is 0 (see IPG_NONE). They are read during the call alone. */
typedef struct ipg_bytes {
  const unsigned char *at;
  size_t size;
} ipg_bytes;

/* A file in memory: its name, which is UTF-8, and its bytes. Of two of one name the first counts. */
typedef struct ipg_file {
  ipg_bytes name;
  ipg_bytes bytes;
} ipg_file;

/* The bytes of a string constant, without its last zero; and no bytes. Both are expressions. */
#ifdef __cplusplus
#define IPG_TEXT(text) ipg_bytes{reinterpret_cast<const unsigned char *>(text), sizeof(text) - 1}
#else
#define IPG_TEXT(text) ((ipg_bytes){(const unsigned char *)(text), sizeof(text) - 1})
#endif
#define IPG_NONE IPG_TEXT("")

/* Statuses, as of the command line. */
enum ipg_status {
  IPG_DONE = 0,
  IPG_NO_PARSE = 1,  /* the input has no tree */
  IPG_REFUSED = 2,   /* the grammar, the path, the table file or the script is refused */
  IPG_RANGE = 3,     /* an evaluated expression leaves 64 bits */
  IPG_USAGE = 4,     /* the words are no command, or aren't UTF-8 */
  IPG_NO_FILE = 5,   /* a name that is read is not among the files */
  IPG_MEMORY = 7,    /* want of memory, or a limit of the checker's own; there is no text */
  IPG_TOO_LARGE = 8, /* an input of more than 2^30 bytes */
  IPG_BAD_PROOF = 9  /* a certificate does not prove the grammar */
};

/* Runs ipg with `word_count` words (the program's name is not one of them) over `file_count` files.
 *
 * The text goes to `room` as far as that goes, and `*size` tells its length in bytes. Where it is more than `room_size`, call again with a
 * room of that size.
 * Returns the status. It takes time and memory as the command does (a heap of 512 MiB at most for a tree), by `malloc`, `realloc` and
 * `free` alone, and gives all of it back before it returns.
 * Calls may run on several threads at once. No pointer may be null; `words` and `files` may have no elements. */
uint8_t ipg_run(const ipg_bytes *words, size_t word_count, const ipg_file *files, size_t file_count, unsigned char *room, size_t room_size,
                uint64_t *size);

/* What an input came to: IPG_DONE, IPG_NO_PARSE, IPG_RANGE, IPG_MEMORY or IPG_TOO_LARGE; and how many rows its tree has. */
typedef struct ipg_answer {
  uint64_t status;
  uint64_t rows;
} ipg_answer;

/* What a row is. */
enum ipg_kind {
  IPG_NODE = 0,       /* a rule on a part; its attributes and what lies in it follow */
  IPG_ATTRIBUTE = 1,  /* an attribute of the node before it */
  IPG_TERMINAL = 2,   /* a string of the grammar, which is the input's bytes from `from` to `to` */
  IPG_NUMBER = 3,
  IPG_RAW = 4,        /* raw bytes */
  IPG_ARRAY = 5,      /* its items follow */
  IPG_REPETITION = 6  /* its items follow */
};

/* Whose number `name` is. */
enum ipg_named {
  IPG_OF_RULE = 0,
  IPG_OF_PRIMITIVE = 1, /* 0 U8, 1 U16LE, 2 U16BE, 3 U32LE, 4 U32BE, 5 U64LE, 6 U64BE, 7 Bytes */
  IPG_OF_NONE = 2,
  IPG_OF_ATTRIBUTE = 3
};

/* A row of a tree. What its kind doesn't have is 0. */
typedef struct ipg_row {
  uint32_t kind;
  uint32_t of, name;   /* the rule of a node or of items, the primitive of a number, of raw bytes or of items, the attribute */
  uint32_t high, low;  /* a number's halves; `high` is 0 where it has fewer than 64 bits */
  uint64_t depth;      /* 0 for the root; one more for what lies in a row; an attribute has its node's */
  uint64_t from, to;   /* places of the input, in bytes; an array and a repetition have those of the part they lie in */
  uint64_t start, end; /* of a node: the first byte that it touches, and the one behind the last */
  int64_t value;       /* of an attribute */
} ipg_row;

/* Parses `input_count` inputs by one grammar: its text, or the name of a built-in one (@elf, @pe, @gif, @pcap). It is checked once.
 *
 * `answers` gets the answer of each input, in order, and `rows` the rows of all their trees one behind another, in the order of a walk; both
 * as far as they go. `*length` tells how many rows there are. Where it is more than `row_count`, call again with room for so many.
 * Nothing of an input is copied: rows have places in it.
 * Returns IPG_DONE; IPG_REFUSED where the grammar is refused (`ipg_run` with the word `explain` says why), or IPG_MEMORY. Then nothing is told
 * and `*length` is 0. Each parse may take 512 MiB, and what all take is given back before the call returns.
 * Calls may run on several threads at once. No pointer may be null; arrays may have no elements. */
uint8_t ipg_trees(const unsigned char *grammar, size_t grammar_size, const ipg_bytes *inputs, size_t input_count, ipg_answer *answers,
                  size_t answer_count, ipg_row *rows, size_t row_count, uint64_t *length);

/* The names of a grammar, given as for `ipg_trees`: a line for each rule, an empty line, a line for each attribute, each by its number from 0
 * on. The text goes to `room` as far as that goes, and `*size` tells its length in bytes.
 * Returns IPG_DONE, IPG_REFUSED or IPG_MEMORY, the last two with `*size` 0. */
uint8_t ipg_names(const unsigned char *grammar, size_t grammar_size, unsigned char *room, size_t room_size, uint64_t *size);

#ifdef __cplusplus
}
#endif

#endif
