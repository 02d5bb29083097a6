// peak FILE PROGRAM WORD..: runs the program, writes the most kilobytes of memory that it had at once to the file, and ends as
// it does. A shell's own time would count the memory of the shell, too.
#define _GNU_SOURCE
#include <stdio.h>
#include <sys/resource.h>
#include <sys/wait.h>
#include <unistd.h>

int main(int count, char **words) {
  struct rusage used;
  int status;
  if (count < 3) return 127;
  pid_t child = fork();
  if (child == 0) {
    execv(words[2], words + 2);
    _exit(127);
  }
  if (child < 0 || wait4(child, &status, 0, &used) < 0) return 127;
  FILE *file = fopen(words[1], "w");
  if (!file || fprintf(file, "%ld\n", used.ru_maxrss) < 0 || fclose(file)) return 127;
  return WIFEXITED(status) ? WEXITSTATUS(status) : 128 + WTERMSIG(status);
}
