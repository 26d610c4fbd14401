// Runs each line of a test's table with the first, the second and each further request for memory refused, until a run meets no
// refusal. Some lines make no request; several such in a row stand behind the table's end. A process for each run: a line takes
// less time than it would take to begin one elsewhere.
//
// each_in_turn LIBRARY TOLD SECONDS PROGRAM WORD..: LIBRARY is loaded before the C library, and makes the file TOLD where it
// refuses; the environment's JX_LINE has the line's number, from 0. Prints how many runs met a refusal, with status 0, or the line
// and the request with which the test failed, with status 1. A run that takes longer than SECONDS fails.
#define _GNU_SOURCE
#include <fcntl.h>
#include <stdio.h>
#include <stdlib.h>
#include <sys/wait.h>
#include <unistd.h>

// More lines than any table has, and more lines in a row than make no request in any.
enum { MANY = 1000, EMPTY = 8 };

static int fault(const char *what) {
  perror(what);
  return 2;
}

static int set(const char *name, unsigned long value) {
  char number[32];
  snprintf(number, sizeof number, "%lu", value);
  return setenv(name, number, 1);
}

static void become(char **command, const char *library, const char *told, unsigned seconds, unsigned long line, unsigned long nth) {
  int nothing = open("/dev/null", O_RDWR);
  if (nothing < 0 || dup2(nothing, 1) < 0 || dup2(nothing, 2) < 0) _exit(127);
  if (setenv("LD_PRELOAD", library, 1) || setenv("REFUSE_TOLD", told, 1)) _exit(127);
  if (set("JX_LINE", line) || set("REFUSE_NTH", nth)) _exit(127);
  alarm(seconds);
  execv(command[0], command);
  _exit(127);
}

int main(int count, char **words) {
  if (count < 6) return fault("usage: each_in_turn LIBRARY TOLD SECONDS PROGRAM WORD..");
  unsigned long met = 0, line = 0, nth = 1, empty = 0;
  for (;;) {
    int status = 0;
    pid_t child = fork();
    if (child < 0) return fault("fork");
    if (child == 0) become(words + 4, words[1], words[2], (unsigned)atoi(words[3]), line, nth);
    if (waitpid(child, &status, 0) != child) return fault("waitpid");
    if (!WIFEXITED(status) || WEXITSTATUS(status) != 0) {
      printf("line %lu, request %lu\n", line, nth);
      return 1;
    }
    if (unlink(words[2]) == 0) {
      met++;
      nth++;
      continue;
    }
    empty = nth == 1 ? empty + 1 : 0;
    if (empty == EMPTY) {
      printf("%lu\n", met);
      return 0;
    }
    if (++line == MANY) {
      printf("a table that goes on behind line %lu\n", line);
      return 1;
    }
    nth = 1;
  }
}
