/* Quicksort of texts, without a pointer to a function. */
#include <stdio.h>
#include <string.h>

static void sort(const char *texts[], long first, long last) {
  if (first >= last)
    return;
  const char *pivot = texts[(first + last) / 2];
  long low = first, high = last;
  while (low <= high) {
    while (strcmp(texts[low], pivot) < 0)
      low++;
    while (strcmp(texts[high], pivot) > 0)
      high--;
    if (low <= high) {
      const char *held = texts[low];
      texts[low++] = texts[high];
      texts[high--] = held;
    }
  }
  sort(texts, first, high);
  sort(texts, low, last);
}

int main(void) {
  const char *texts[] = {"pear", "fig", "apple", "quince", "plum", "fig", "date"};
  long count = sizeof texts / sizeof texts[0];
  sort(texts, 0, count - 1);
  for (long i = 0; i < count; i++)
    puts(texts[i]);
  return 0;
}
