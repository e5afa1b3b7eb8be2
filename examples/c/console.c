/* What picolibc asks of a host: where standard output goes, and how a program ends. */
#include <stdio.h>
#include <unistd.h>

#include "host.h"

static int put(char byte, FILE *file) {
  (void)file;
  HOST_CONSOLE = byte;
  return 0;
}

static FILE console = FDEV_SETUP_STREAM(put, NULL, NULL, _FDEV_SETUP_WRITE);
FILE *const stdout = &console;

void _exit(int status) {
  HOST_HALT = status;
  for (;;) continue;
}
