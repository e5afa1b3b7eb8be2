/* Counts how often each word of a text comes, with what a C library has for it: it splits, allocates, sorts and prints. */
#include <stdio.h>
#include <stdlib.h>
#include <string.h>

static char text[] = "the frame takes the time that the link takes and the link takes the time that it has";

static int by_letters(const void *a, const void *b) {
  return strcmp(*(char *const *)a, *(char *const *)b);
}

int main(void) {
  char **words = NULL;
  int count = 0, letters = 0;
  for (char *word = strtok(text, " "); word; word = strtok(NULL, " ")) {
    words = realloc(words, (count + 1) * sizeof *words);
    if (!words) return EXIT_FAILURE;
    words[count++] = word;
    letters += strlen(word);
  }
  qsort(words, count, sizeof *words, by_letters);
  for (int first = 0, next; first < count; first = next) {
    for (next = first + 1; next < count && !strcmp(words[first], words[next]);) next++;
    printf("%5d %-5s 0x%02x\n", next - first, words[first], words[first][0]);
  }
  printf("%d words of %.3f letters\n", count, (double)letters / count);
  return EXIT_SUCCESS;
}
