//! defined
#include <stdio.h>
#include <stdlib.h>
#include <string.h>
enum { SIZE = 8 };
struct entry { char *key; int value; struct entry *next; };
static struct entry *table[SIZE];
static unsigned hash(const char *s) { unsigned h = 5381; while (*s) h = h * 33 + (unsigned char)*s++; return h % SIZE; }
static int *find(const char *key) {
  struct entry **at = &table[hash(key)];
  for (; *at; at = &(*at)->next) if (!strcmp((*at)->key, key)) return &(*at)->value;
  *at = calloc(1, sizeof **at);
  (*at)->key = malloc(strlen(key) + 1);
  strcpy((*at)->key, key);
  return &(*at)->value;
}
int main(void) {
  const char *words[] = { "a", "b", "a", "c", "b", "a" };
  for (size_t i = 0; i < sizeof words / sizeof *words; i++) ++*find(words[i]);
  printf("%d %d %d\n", *find("a"), *find("b"), *find("c"));
  for (int i = 0; i < SIZE; i++) for (struct entry *e = table[i], *n; e; e = n) { n = e->next; free(e->key); free(e); }
  return 0;
}
