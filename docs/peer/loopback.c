// A plain socket loop, to compare with channels by proxy: one thread sends bytes over a connection of this machine and takes
// them out at its other end, without waiting, in pieces of 64 KiB. `loopback <bytes>` prints the bytes a second.
#include <arpa/inet.h>
#include <errno.h>
#include <fcntl.h>
#include <stdio.h>
#include <stdlib.h>
#include <string.h>
#include <sys/socket.h>
#include <time.h>
#include <unistd.h>

static char piece[65536];

static double now(void) {
  struct timespec t;
  clock_gettime(CLOCK_MONOTONIC, &t);
  return t.tv_sec + t.tv_nsec / 1e9;
}

int main(int count, char **words) {
  long total = count > 1 ? atol(words[1]) : 1000000000, sent = 0, got = 0;
  struct sockaddr_in at = {.sin_family = AF_INET, .sin_addr.s_addr = htonl(INADDR_LOOPBACK)};
  socklen_t size = sizeof at;
  int listener = socket(AF_INET, SOCK_STREAM, 0), out = socket(AF_INET, SOCK_STREAM, 0);
  if (bind(listener, (void *)&at, size) || listen(listener, 1) || getsockname(listener, (void *)&at, &size) ||
      connect(out, (void *)&at, size))
    return 1;
  int wire = accept(listener, NULL, NULL);
  fcntl(out, F_SETFL, O_NONBLOCK);
  fcntl(wire, F_SETFL, O_NONBLOCK);
  double began = now();
  while (got < total) {
    if (sent < total) {
      long left = total - sent, n = send(out, piece, left < 65536 ? left : 65536, 0);
      if (n > 0) sent += n;
      else if (errno != EAGAIN) return 1;
    }
    long n = recv(wire, piece, sizeof piece, 0);
    if (n > 0) got += n;
    else if (n == 0 || errno != EAGAIN) return 1;
  }
  printf("%.2f GB/s\n", total / (now() - began) / 1e9);
}
