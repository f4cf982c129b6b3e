/* Runs a program with its arguments, and prints the most memory that it took, in KiB. Its exit status is the program's.
   The run isn't measured by a process of Python, because what that takes before it starts the program would count. */
#include <stdio.h>
#include <sys/resource.h>
#include <sys/wait.h>
#include <unistd.h>

int main(int count, char **words) {
  int status;
  struct rusage usage;
  pid_t child = count > 1 ? fork() : -1;
  if (child == 0) {
    execv(words[1], words + 1);
    _exit(127);
  }
  if (child < 0 || wait4(child, &status, 0, &usage) != child)
    return 126;
  fprintf(stderr, "%ld\n", usage.ru_maxrss);
  return WIFEXITED(status) ? WEXITSTATUS(status) : 125;
}
