/* The sections of an ELF file: number, offset and size, as `readelf -S` has them.
 *
 *   cc -I../include elf_sections.c -L../out -lipg -o elf_sections && ./elf_sections /bin/true */
#include "ipg.h"
#include <stdio.h>
#include <stdlib.h>
#include <string.h>

static unsigned char *read_file(const char *name, size_t *size) {
  FILE *file = fopen(name, "rb");
  size_t room = 1 << 16, got;
  unsigned char *bytes = file ? malloc(room) : NULL;
  *size = 0;
  while (bytes && (got = fread(bytes + *size, 1, room - *size, file)) > 0) {
    *size += got;
    if (*size == room) {
      unsigned char *more = realloc(bytes, room *= 2);
      if (!more) free(bytes);
      bytes = more;
    }
  }
  if (file) fclose(file);
  return bytes;
}

/* The numbers that a path picks, one a line. */
static char *query(const ipg_file *input, const char *path) {
  ipg_bytes words[] = {IPG_TEXT("query"), IPG_TEXT("@elf"), IPG_TEXT("input"), {(const unsigned char *)path, strlen(path)}};
  uint64_t size = 1 << 16;
  char *text = NULL;
  for (;;) {
    uint64_t room = size;
    char *more = realloc(text, room + 1);
    if (!more) break;
    text = more;
    if (ipg_run(words, 4, input, 1, (unsigned char *)text, room, &size) != IPG_DONE) break;
    if (size > room) continue;
    text[size] = 0;
    return text;
  }
  free(text);
  return NULL;
}

int main(int count, char **names) {
  size_t size;
  unsigned char *bytes;
  if (count != 2 || !(bytes = read_file(names[1], &size))) return 2;
  ipg_file input = {IPG_TEXT("input"), {bytes, size}};
  char *offsets = query(&input, "**/Sh.off"), *sizes = query(&input, "**/Sh.size");
  if (!offsets || !sizes) {
    fprintf(stderr, "%s: no ELF file that can be read\n", names[1]);
    return 1;
  }
  char *offset = offsets, *end = sizes;
  for (int number = 0; *offset; number++) {
    printf("%d %#llx %#llx\n", number, strtoull(offset, &offset, 10), strtoull(end, &end, 10));
    offset += *offset == '\n';
    end += *end == '\n';
  }
  free(offsets);
  free(sizes);
  free(bytes);
  return 0;
}
