#include <stdio.h>
#include <stdlib.h>
#include <string.h>

struct person {
  char initial;
  const char *name;
  int (*order)(const char *, const char *);
};

static int compared(const char *a, const char *b) {
  return strcmp(a, b);
}

static int by_name(const void *left, const void *right) {
  const struct person *a = left, *b = right;
  return a->order(a->name, b->name);
}

int main(void) {
  const char *names[] = {"Mara", "Ada", "Zoe", "Ken"};
  struct person *people = malloc(4 * sizeof *people);
  if (!people)
    return EXIT_FAILURE;
  for (int i = 0; i < 4; i++) {
    people[i].initial = names[i][0];
    people[i].name = names[i];
    people[i].order = compared;
  }
  qsort(people, 4, sizeof *people, by_name);
  for (int i = 0; i < 4; i++)
    printf("%c %s\n", people[i].initial, people[i].name);
  free(people);
  return 0;
}
