/* Prints the primes below 50 with a line for each ten numbers, and halts with how many there are. */
#include "host.h"

static uint8_t is_composite[50];

static void print(const char *text) {
  while (*text) HOST_CONSOLE = *text++;
}

static void print_number(uint32_t n) {
  char digits[11];
  int at = 10;
  digits[at] = 0;
  do {
    digits[--at] = '0' + n % 10;
    n /= 10;
  } while (n);
  print(digits + at);
}

int main(void) {
  int primes = 0;
  for (uint32_t n = 2; n < 50; n++) {
    if (n % 10 == 0) print("\n");
    if (is_composite[n]) continue;
    primes++;
    print(" ");
    print_number(n);
    for (uint32_t multiple = n * n; multiple < 50; multiple += n) is_composite[multiple] = 1;
  }
  print("\n");
  uint64_t product = 1;
  for (uint32_t n = 2; n <= 20; n++) product *= n;
  print("20! ends in ");
  print_number(product % 1000000000u);
  print("\n");
  return primes;
}
