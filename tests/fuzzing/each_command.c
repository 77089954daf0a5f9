// each_command PROGRAM: has the program read the document on standard input by each of its commands, and aborts where one
// ends by a signal, takes over 5 seconds or ends with a status that isn't its own. A fuzzer that knows crashes alone finds
// the others so. docs/trust.md says what was run under it.
#define _GNU_SOURCE
#include <fcntl.h>
#include <signal.h>
#include <stdio.h>
#include <stdlib.h>
#include <sys/mman.h>
#include <sys/wait.h>
#include <unistd.h>

// A command's words, and the statuses that it has where memory is there and nothing stands in the way of reading and writing.
struct command {
  char *words[4];
  const char *statuses;
};

static const struct command commands[] = {
    {{"check"}, "012"},           {{"firm"}, "012"},
    {{"converge"}, "012"},
    {{"explain"}, "012"},         {{"explain", "--json"}, "012"},
    {{"explain", "--firm"}, "012"}, {{"explain", "--firm", "--json"}, "012"},
    {{"certify"}, "012"},         {{"certify", "--partial"}, "026"},
    {{"check", "--certify"}, "012"}, {{"firm", "--certify"}, "012"},
    {{"explain", "--certify"}, "012"}, {{"explain", "--certify", "--json"}, "012"},
    {{"explain", "--certify", "--firm"}, "012"},
    {{"explain", "--converge"}, "012"}, {{"explain", "--converge", "--json"}, "012"},
    {{"rows"}, "012"},            {{"rows", "--firm"}, "012"},
    {{"run"}, "012"},             {{"run", "--document"}, "012"},
    {{"run", "--turns", "1"}, "012"},
};

static int document(void) {
  int file = memfd_create("document", 0);
  char bytes[65536];
  for (ssize_t taken; (taken = read(0, bytes, sizeof bytes)) > 0;)
    if (write(file, bytes, taken) != taken) exit(1);
  return file;
}

static void become(char *program, const struct command *command, int file) {
  char *words[5] = {program};
  for (int i = 0; i < 3; i++) words[i + 1] = command->words[i];
  int nothing = open("/dev/null", O_WRONLY);
  dup2(file, 0);
  dup2(nothing, 1);
  dup2(nothing, 2);
  alarm(5);
  execv(program, words);
  _exit(127);
}

static int is_its_own(int status, const struct command *command) {
  if (!WIFEXITED(status)) return 0;
  for (const char *one = command->statuses; *one; one++)
    if (WEXITSTATUS(status) == *one - '0') return 1;
  return 0;
}

int main(int count, char **words) {
  if (count != 2) return 1;
  int file = document();
  for (unsigned i = 0; i < sizeof commands / sizeof *commands; i++) {
    int status;
    lseek(file, 0, SEEK_SET);
    pid_t child = fork();
    if (child == 0) become(words[1], &commands[i], file);
    if (child < 0 || waitpid(child, &status, 0) != child) return 1;
    if (is_its_own(status, &commands[i])) continue;
    fprintf(stderr, "each_command: %s %s ended with %d\n", commands[i].words[0],
            commands[i].words[1] ? commands[i].words[1] : "", status);
    abort();
  }
  return 0;
}
