/* What the program asks of its system, by Windows' own calls. The contracts are those that the kit declares for its own C; the numbers of errors
 * and flags are Linux's, since the program was compiled for it.
 *
 * - Words, variables and names of files are UTF-8 on the program's side and UTF-16 on the system's. What isn't Unicode becomes a byte that no
 *   UTF-8 has, as on Linux, where it is refused.
 * - Bytes are never translated. A console is set to UTF-8 while the program runs.
 * - Names go by the long form (`\\?\`), so they may have more than 260 characters. */
#define WIN32_LEAN_AND_MEAN
#include <windows.h>
#include <shellapi.h>
#include <stdint.h>
#include <stdlib.h>
#include <string.h>

enum { SYS_ENOENT = 2, SYS_EIO = 5, SYS_EBADF = 9, SYS_ENOMEM = 12, SYS_EACCES = 13, SYS_EMFILE = 24, SYS_ENOSPC = 28, SYS_EPIPE = 32 };
enum { SYS_ENOTDIR = 20, SYS_EINVAL = 22, SYS_ESPIPE = 29, SYS_ENOSYS = 38, AT_WORKING_FOLDER = -100 };
enum { FILES = 64, AT_ONCE = 1 << 30, LONGEST_NAME = 1 << 15 };

/* A folder that is listed, and the entry that is due next, where there is one more. */
typedef struct {
  HANDLE search;
  WIN32_FIND_DATAW entry;
  int is_due;
} folder;

static HANDLE files[FILES]; /* by descriptor; 0 to 2 are the system's */
static folder *folders[FILES];
static int error_now;

static int fail(int error) {
  error_now = error;
  return -1;
}

/* Linux's number for what the last call met. */
static int error_of_system(void) {
  switch (GetLastError()) {
  case ERROR_FILE_NOT_FOUND: case ERROR_PATH_NOT_FOUND: case ERROR_INVALID_NAME: case ERROR_BAD_PATHNAME: return SYS_ENOENT;
  case ERROR_ACCESS_DENIED: case ERROR_SHARING_VIOLATION: return SYS_EACCES;
  case ERROR_BROKEN_PIPE: case ERROR_NO_DATA: case ERROR_PIPE_NOT_CONNECTED: return SYS_EPIPE;
  case ERROR_DISK_FULL: case ERROR_HANDLE_DISK_FULL: return SYS_ENOSPC;
  case ERROR_NOT_ENOUGH_MEMORY: case ERROR_OUTOFMEMORY: return SYS_ENOMEM;
  case ERROR_INVALID_HANDLE: return SYS_EBADF;
  case ERROR_DIRECTORY: return SYS_ENOTDIR;
  default: return SYS_EIO;
  }
}

/* A text of the system in UTF-8; the byte 0xff, which is no UTF-8, where it isn't Unicode; null for want of memory. */
static char *utf8_of(const wchar_t *text) {
  int size = WideCharToMultiByte(CP_UTF8, WC_ERR_INVALID_CHARS, text, -1, 0, 0, 0, 0);
  char *made = malloc(size > 0 ? (size_t)size : 2);
  if (!made) return 0;
  if (size > 0) WideCharToMultiByte(CP_UTF8, WC_ERR_INVALID_CHARS, text, -1, made, size, 0, 0);
  else memcpy(made, "\xff", 2);
  return made;
}

/* A text of the program in UTF-16; null where it isn't UTF-8, or for want of memory. */
static wchar_t *utf16_of(const char *text) {
  int size = MultiByteToWideChar(CP_UTF8, MB_ERR_INVALID_CHARS, text, -1, 0, 0);
  wchar_t *made = size > 0 ? malloc((size_t)size * sizeof *made) : 0;
  if (made) MultiByteToWideChar(CP_UTF8, MB_ERR_INVALID_CHARS, text, -1, made, size);
  return made;
}

/* Puts a text at the start of a room, and gives it back: its length, or -2 where it doesn't fit, and then the room is full; -1 where there is none. */
static intptr_t put(char *text, unsigned char *room, size_t size) {
  if (!text) return -1;
  size_t length = strlen(text);
  memcpy(room, text, length < size ? length : size);
  free(text);
  return length <= size ? (intptr_t)length : -2;
}

/* Contract of `rattle_arg`: word i of the command line, put as above; -1 where there is no such word. */
intptr_t rattle_arg(size_t i, unsigned char *room, size_t size) {
  static wchar_t **words;
  static int count;
  if (!words) words = CommandLineToArgvW(GetCommandLineW(), &count);
  return words && i < (size_t)count ? put(utf8_of(words[i]), room, size) : -1;
}

/* Contract of `rattle_env`: the value of a variable, put as above; -1 where there is no such variable. */
intptr_t rattle_env(const char *name, unsigned char *room, size_t size) {
  wchar_t *wide = utf16_of(name);
  wchar_t *value = wide ? _wgetenv(wide) : 0;
  free(wide);
  return value ? put(utf8_of(value), room, size) : -1;
}

/* Contract of `rattle_env_at`: entry i of the environment, put as above; -1 behind the last one. */
intptr_t rattle_env_at(size_t i, unsigned char *room, size_t size) {
  wchar_t *block = GetEnvironmentStringsW(), *entry = block;
  if (!block) return -1;
  while (i > 0 && *entry) {
    entry += wcslen(entry) + 1;
    i--;
  }
  intptr_t length = *entry ? put(utf8_of(entry), room, size) : -1;
  FreeEnvironmentStringsW(block);
  return length;
}

/* Contract of `rattle_errno`: the error of the last call that failed, by Linux's numbers. */
int rattle_errno(void) { return error_now; }

/* Contract of `rattle_set_errno`: sets that. */
void rattle_set_errno(int error) { error_now = error; }

static HANDLE file_of(int fd) {
  static const DWORD own[] = {STD_INPUT_HANDLE, STD_OUTPUT_HANDLE, STD_ERROR_HANDLE};
  if (fd < 0 || fd >= FILES) return 0;
  return fd < 3 ? GetStdHandle(own[fd]) : files[fd];
}

/* A name in the long form, which isn't bound to 260 characters; null where there is none. */
static wchar_t *long_name(const char *name) {
  static const wchar_t drive[] = L"\\\\?\\", share[] = L"\\\\?\\UNC";
  wchar_t *wide = utf16_of(name);
  DWORD size = wide ? GetFullPathNameW(wide, 0, 0, 0) : 0;
  wchar_t *made = size ? malloc((size + 8) * sizeof *made) : 0;
  if (made && GetFullPathNameW(wide, size, made + 8, 0)) {
    wchar_t *full = made + 8;
    int is_share = full[0] == '\\' && full[1] == '\\';
    if (is_share && (full[2] == '.' || full[2] == '?')) { /* a device, or long already */
      memmove(made, full, (wcslen(full) + 1) * sizeof *full);
    } else {
      const wchar_t *front = is_share ? share : drive;
      memmove(made + wcslen(front), full + is_share, (wcslen(full + is_share) + 1) * sizeof *full);
      memcpy(made, front, wcslen(front) * sizeof *front);
    }
  } else {
    free(made);
    made = 0;
  }
  free(wide);
  return made;
}

/* The least descriptor that is free; FILES where none is. */
static int free_descriptor(void) {
  int fd = 3;
  while (fd < FILES && (files[fd] || folders[fd])) fd++;
  return fd;
}

/* Contract of `open`: POSIX's, for reading, which is all that the program asks: a descriptor, or -1. It opens no folder. */
int system_open(const char *name, int flags, ...) __asm__("open");
int system_open(const char *name, int flags, ...) {
  int fd = free_descriptor();
  if ((flags & 3) != 0) return fail(SYS_ENOSYS);
  if (fd == FILES) return fail(SYS_EMFILE);
  wchar_t *wide = long_name(name);
  if (!wide) return fail(SYS_ENOENT);
  HANDLE file = CreateFileW(wide, GENERIC_READ, FILE_SHARE_READ | FILE_SHARE_WRITE | FILE_SHARE_DELETE, 0, OPEN_EXISTING, 0, 0);
  int error = file == INVALID_HANDLE_VALUE ? error_of_system() : 0;
  free(wide);
  if (error) return fail(error);
  files[fd] = file;
  return fd;
}

/* Contract of `rattle_open_dir_at`: opens a folder to be listed, by a name from the working folder on, which is all that the program asks: a
 * descriptor, or -1. */
int rattle_open_dir_at(int at, const char *name) {
  int fd = free_descriptor();
  char *pattern = malloc(strlen(name) + 3);
  wchar_t *wide = pattern ? long_name(strcat(strcpy(pattern, name), "/*")) : 0;
  folder *it = wide ? malloc(sizeof *it) : 0;
  int error = at != AT_WORKING_FOLDER ? SYS_ENOSYS : fd == FILES ? SYS_EMFILE : !it ? SYS_ENOENT : 0;
  if (!error) it->search = FindFirstFileW(wide, &it->entry);
  if (!error && it->search == INVALID_HANDLE_VALUE) error = error_of_system();
  free(pattern);
  free(wide);
  if (error) {
    free(it);
    return fail(error);
  }
  it->is_due = 1;
  folders[fd] = it;
  return fd;
}

/* Puts an entry as Linux has it: number, place and size of it, what it is, and its name with a zero. */
static void put_entry(unsigned char *room, const folder *it, const char *name, uint16_t size) {
  uint64_t one = 1;
  memcpy(room, &one, 8);
  memcpy(room + 8, &one, 8);
  memcpy(room + 16, &size, 2);
  room[18] = it->entry.dwFileAttributes & FILE_ATTRIBUTE_DIRECTORY ? 4 : 8;
  strcpy((char *)room + 19, name);
}

/* Contract of `getdents64`: Linux's: it fills the room with entries of a folder, and answers how many bytes these have, 0 at the end, or -1. */
intptr_t getdents64(int fd, unsigned char *room, size_t size) {
  folder *it = fd >= 3 && fd < FILES ? folders[fd] : 0;
  size_t at = 0;
  if (!it) return fail(SYS_EBADF);
  while (it->is_due) {
    char *name = utf8_of(it->entry.cFileName);
    if (!name) return fail(SYS_ENOMEM);
    size_t length = (19 + strlen(name) + 1 + 7) & ~(size_t)7;
    int fits = length <= size - at;
    if (fits) put_entry(room + at, it, name, (uint16_t)length);
    free(name);
    if (!fits) return at > 0 ? (intptr_t)at : fail(SYS_EINVAL);
    at += length;
    it->is_due = FindNextFileW(it->search, &it->entry);
  }
  return (intptr_t)at;
}

static int close_folder(int fd) {
  folder *it = folders[fd];
  folders[fd] = 0;
  int is_closed = FindClose(it->search);
  free(it);
  return is_closed ? 0 : fail(SYS_EIO);
}

/* Contract of `lseek`: POSIX's, of a file; the three ways to count have the same numbers. */
int64_t system_lseek(int fd, int64_t by, int from) __asm__("lseek");
int64_t system_lseek(int fd, int64_t by, int from) {
  LARGE_INTEGER way = {.QuadPart = by}, place;
  HANDLE file = file_of(fd);
  if (GetFileType(file) != FILE_TYPE_DISK) return fail(SYS_ESPIPE);
  return SetFilePointerEx(file, way, &place, (DWORD)from) ? place.QuadPart : fail(SYS_EINVAL);
}

/* Contract of `readlink`: POSIX's, of the link to the program itself, which is all that the program asks: how many bytes of the target it put. The
 * target's parts are behind `/`, by which the program takes names apart. */
intptr_t readlink(const char *name, char *room, size_t size) {
  static wchar_t wide[LONGEST_NAME];
  DWORD count = strcmp(name, "/proc/self/exe") ? 0 : GetModuleFileNameW(0, wide, LONGEST_NAME);
  char *text = count > 0 && count < LONGEST_NAME ? utf8_of(wide) : 0;
  if (!text) return fail(SYS_ENOENT);
  size_t length = strlen(text) < size ? strlen(text) : size;
  for (size_t k = 0; k < length; k++) room[k] = text[k] == '\\' ? '/' : text[k];
  free(text);
  return (intptr_t)length;
}

/* Contract of `close`: POSIX's. */
int system_close(int fd) __asm__("close");
int system_close(int fd) {
  if (fd < 3 || fd >= FILES || !(files[fd] || folders[fd])) return fail(SYS_EBADF);
  if (folders[fd]) return close_folder(fd);
  HANDLE file = files[fd];
  files[fd] = 0;
  return CloseHandle(file) ? 0 : fail(SYS_EIO);
}

/* Contract of `read`: POSIX's: -1, or how many bytes it put at the start of the room, 0 at the end. A pipe whose writer is gone has ended. */
intptr_t system_read(int fd, void *room, size_t size) __asm__("read");
intptr_t system_read(int fd, void *room, size_t size) {
  DWORD count = 0;
  if (ReadFile(file_of(fd), room, size < AT_ONCE ? (DWORD)size : AT_ONCE, &count, 0)) return count;
  DWORD error = GetLastError();
  return error == ERROR_BROKEN_PIPE || error == ERROR_HANDLE_EOF ? 0 : fail(error_of_system());
}

static UINT page_before;
static void set_page_back(void) { SetConsoleOutputCP(page_before); }

/* A console shows bytes by a page of signs: UTF-8's, while the program runs. */
static void set_page(HANDLE file) {
  static int is_set;
  DWORD mode;
  if (is_set) return;
  is_set = 1;
  if (!GetConsoleMode(file, &mode)) return;
  page_before = GetConsoleOutputCP();
  if (page_before && SetConsoleOutputCP(CP_UTF8)) atexit(set_page_back);
}

/* Contract of `write`: POSIX's: -1, or how many of the first bytes it took. SIGPIPE isn't known here: a closed pipe is EPIPE. */
intptr_t system_write(int fd, const void *bytes, size_t size) __asm__("write");
intptr_t system_write(int fd, const void *bytes, size_t size) {
  DWORD count = 0;
  HANDLE file = file_of(fd);
  set_page(file);
  if (!WriteFile(file, bytes, size < AT_ONCE ? (DWORD)size : AT_ONCE, &count, 0)) return fail(error_of_system());
  if (count == 0 && size > 0) return fail(SYS_ENOSPC);
  return count;
}

/* Contract of `statx`: Linux's: it fills what is known of an open file (struct statx: mode at byte 28, size at byte 40), or answers -1. The
 * program takes the size as a guess. */
int statx(int fd, const char *name, int flags, unsigned mask, unsigned char *found) {
  LARGE_INTEGER size;
  uint16_t mode = 0100000;
  (void)flags, (void)mask;
  if (name[0] || !GetFileSizeEx(file_of(fd), &size)) return fail(SYS_ENOSYS);
  memcpy(found + 28, &mode, sizeof mode);
  memcpy(found + 40, &size.QuadPart, sizeof size.QuadPart);
  return 0;
}

/* Contract of `__sysv_signal`: C's signal, which answers what was set before: the default, 0. Windows has no SIGPIPE, and no other is asked for. */
intptr_t __sysv_signal(int number, intptr_t action) {
  (void)number, (void)action;
  return 0;
}

/* Contract of `__write`: that of `write`. The module's start would tell by it of a processor that lacks something. */
intptr_t __write(int fd, const void *bytes, size_t size) { return system_write(fd, bytes, size); }

/* Contract of `__x86_get_cpuid_feature_leaf`: what the processor can do, as bits. The module's start asks for more than its code here uses:
 * clang compiles it for every x86-64, so nothing is lacking. */
const uint32_t *__x86_get_cpuid_feature_leaf(int leaf) {
  static const uint32_t all[8] = {-1u, -1u, -1u, -1u, -1u, -1u, -1u, -1u};
  (void)leaf;
  return all;
}
