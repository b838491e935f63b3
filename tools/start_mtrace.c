/* Loaded before the C library: starts glibc's mtrace, which writes each call of a program to the file MALLOC_TRACE
 * (tools/README.md). Children of the program are kept out of it. */
#include <fcntl.h>
#include <mcheck.h>
#include <pthread.h>
#include <string.h>
#include <unistd.h>
static int file;
static void in_child(void) { dup2(open("/dev/null", O_WRONLY), file); }
__attribute__((constructor)) static void start(void) {
  close(file = open("/dev/null", O_RDONLY)); /* mtrace opens its file at the same number */
  mtrace();
  for (char **word = environ; *word; word++) if (!strncmp(*word, "MALLOC_TRACE=", 13)) **word = '_';
  pthread_atfork(0, 0, in_child);
}
