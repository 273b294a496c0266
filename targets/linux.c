/* What the program asks of Linux besides the C library's own open, read, write, close, lseek, readlink, getdents64, statx and __sysv_signal. The
 * kit has the same for x86-64 only.
 *
 * The contracts are those that the kit declares for its own C (`os` and `libc` in its sources):
 * - those are POSIX's and Linux's, by the C library as they are. So a short read or write, EINTR, ENOSPC and EPIPE (SIGPIPE is ignored from the
 *   start of `main`) come to the program as the system tells them, and files have 64-bit sizes.
 * - The flags that the program passes to open (O_RDONLY, O_CLOEXEC) and the fields of statx are the same numbers on x86-64 and arm64.
 * - No function here keeps a pointer that it was handed. */
#define _GNU_SOURCE
#include <errno.h>
#include <fcntl.h>
#include <stdint.h>
#include <stdlib.h>
#include <string.h>

extern char **environ;
static int word_count;
static char **words;

/* The C library hands the words to what runs before `main`. */
__attribute__((constructor)) static void keep_words(int count, char **given) {
  word_count = count;
  words = given;
}

/* Puts a text at the start of a room: its length, or -2 where it doesn't fit, and then the room is full. */
static intptr_t put(const char *text, unsigned char *room, size_t size) {
  size_t length = strlen(text);
  memcpy(room, text, length < size ? length : size);
  return length <= size ? (intptr_t)length : -2;
}

/* Contract of `rattle_arg`: word i of the command line, put as above; -1 where there is no such word. */
intptr_t rattle_arg(size_t i, unsigned char *room, size_t size) {
  return i < (size_t)word_count && words[i] ? put(words[i], room, size) : -1;
}

/* Contract of `rattle_env`: the value of a variable, put as above; -1 where there is no such variable. */
intptr_t rattle_env(const char *name, unsigned char *room, size_t size) {
  const char *value = getenv(name);
  return value ? put(value, room, size) : -1;
}

/* Contract of `rattle_env_at`: entry i of the environment, put as above; -1 behind the last one. */
intptr_t rattle_env_at(size_t i, unsigned char *room, size_t size) {
  size_t count = 0;
  while (environ && environ[count]) count++;
  return i < count ? put(environ[i], room, size) : -1;
}

/* Contract of `rattle_open_dir_at`: opens a folder to be listed, no link to one, by the numbers that flags have here. */
int rattle_open_dir_at(int at, const char *name) { return openat(at, name, O_RDONLY | O_DIRECTORY | O_NOFOLLOW | O_CLOEXEC); }

/* Contract of `rattle_errno`: the error of the last call that failed, by Linux's numbers. */
int rattle_errno(void) { return errno; }

/* Contract of `rattle_set_errno`: sets that. */
void rattle_set_errno(int error) { errno = error; }

/* Contract of `__x86_get_cpuid_feature_leaf`: what the processor can do, as bits. The module's start asks it of an x86-64. Here clang compiles
 * the module for another machine and knows what that can do: nothing is lacking. */
const uint32_t *__x86_get_cpuid_feature_leaf(int leaf) {
  static const uint32_t all[8] = {-1u, -1u, -1u, -1u, -1u, -1u, -1u, -1u};
  (void)leaf;
  return all;
}
