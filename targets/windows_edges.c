/* For edges.py: edges of Windows that another system can't give a program that it starts.
 *   windows_edges console PROGRAM WORDS..    with a console as its output; writes the lines that the console then shows, in UTF-8
 *   windows_edges pipe PROGRAM WORDS..       writes standard input, fifty bytes at a time, to the pipe \\.\pipe\slow, that the words name
 *   windows_edges torn PROGRAM WORDS..       with a word more, half of a character
 * The file `said` gets what the console shows, and what the program wrote else; the status is the program's. */
#define WIN32_LEAN_AND_MEAN
#include <windows.h>
#include <shellapi.h>
#include <stdio.h>
#include <stdlib.h>
#include <string.h>
#include <wchar.h>

enum { AT_ONCE = 50, LONGEST = 32000 };

static HANDLE need(HANDLE it, const char *what) {
  if (it != INVALID_HANDLE_VALUE && it) return it;
  fprintf(stderr, "windows_edges: %s: error %lu\n", what, GetLastError());
  exit(99);
}

/* Starts a program that has this output. */
static HANDLE start(wchar_t *line, HANDLE output) {
  STARTUPINFOW how = {.cb = sizeof how, .dwFlags = STARTF_USESTDHANDLES, .hStdInput = INVALID_HANDLE_VALUE, .hStdOutput = output};
  PROCESS_INFORMATION made = {0};
  need((HANDLE)(intptr_t)CreateProcessW(0, line, 0, 0, TRUE, 0, 0, 0, &how, &made), "a start");
  return made.hProcess;
}

static int status_of(HANDLE process) {
  DWORD status = 98;
  WaitForSingleObject(process, INFINITE);
  GetExitCodeProcess(process, &status);
  return (int)status;
}

static HANDLE opened(const wchar_t *name, DWORD access, DWORD how) {
  SECURITY_ATTRIBUTES inherited = {sizeof inherited, 0, TRUE};
  return need(CreateFileW(name, access, FILE_SHARE_READ | FILE_SHARE_WRITE, &inherited, how, 0, 0), "a file");
}

/* Writes the lines that a console shows, without blanks at their ends, up to the cursor. */
static void write_shown(HANDLE console, HANDLE said) {
  CONSOLE_SCREEN_BUFFER_INFO is;
  need((HANDLE)(intptr_t)GetConsoleScreenBufferInfo(console, &is), "a screen");
  for (SHORT row = 0; row < is.dwCursorPosition.Y; row++) {
    wchar_t signs[1024];
    char text[4096];
    DWORD count = 0, written;
    COORD from = {0, row};
    ReadConsoleOutputCharacterW(console, signs, is.dwSize.X < 1024 ? is.dwSize.X : 1024, from, &count);
    while (count > 0 && signs[count - 1] == L' ') count--;
    int size = WideCharToMultiByte(CP_UTF8, 0, signs, (int)count, text, sizeof text - 1, 0, 0);
    text[size] = '\n';
    WriteFile(said, text, (DWORD)size + 1, &written, 0);
  }
}

static int with_console(wchar_t *line, HANDLE said) {
  HANDLE console = opened(L"CONOUT$", GENERIC_READ | GENERIC_WRITE, OPEN_EXISTING);
  int status = status_of(start(line, console));
  write_shown(console, said);
  return status;
}

/* Feeds the pipe; the program may close it before it has all. */
static int with_pipe(wchar_t *line, HANDLE said) {
  HANDLE pipe = need(CreateNamedPipeW(L"\\\\.\\pipe\\slow", PIPE_ACCESS_OUTBOUND, PIPE_TYPE_BYTE, 1, AT_ONCE, AT_ONCE, 0, 0), "a pipe");
  HANDLE process = start(line, said);
  char bytes[AT_ONCE];
  DWORD count, written;
  if (!ConnectNamedPipe(pipe, 0) && GetLastError() != ERROR_PIPE_CONNECTED) need(0, "a reader");
  while (ReadFile(GetStdHandle(STD_INPUT_HANDLE), bytes, sizeof bytes, &count, 0) && count > 0) {
    if (!WriteFile(pipe, bytes, count, &written, 0)) break;
    FlushFileBuffers(pipe);
  }
  CloseHandle(pipe);
  return status_of(process);
}

/* The command line behind the first words, as Windows hands it over. */
static wchar_t *behind(wchar_t *line, int words) {
  for (int is_quoted = 0; *line && words > 0; line++) {
    if (*line == L'"') is_quoted = !is_quoted;
    if (*line == L' ' && !is_quoted && line[1] != L' ') words--;
  }
  return line;
}

int main(void) {
  static wchar_t line[LONGEST];
  wchar_t *rest = behind(GetCommandLineW(), 2);
  HANDLE said = opened(L"said", GENERIC_WRITE, CREATE_ALWAYS);
  int count;
  wchar_t **words = CommandLineToArgvW(GetCommandLineW(), &count);
  if (count < 3) return 97;
  wcsncpy(line, rest, LONGEST - 3);
  if (!wcscmp(words[1], L"console")) return with_console(line, said);
  if (!wcscmp(words[1], L"pipe")) return with_pipe(line, said);
  wcscat(line, L" \xd800");
  return status_of(start(line, said));
}
