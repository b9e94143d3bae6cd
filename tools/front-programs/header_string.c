#include <stdio.h>
#include <string.h>

static int sign(int number) {
  return (number > 0) - (number < 0);
}

static void copies(void) {
  char text[16] = "abc", part[8], whole[8];
  strcat(text, "def");
  strncat(text, "ghijkl", 2);
  memset(part, '#', sizeof part);
  strncpy(part, "xyz", 2);
  part[2] = 0;
  printf("%s %s %c\n", text, part, part[3]);
  strncpy(whole, "pq", sizeof whole);
  printf("%d %d\n", memcmp(whole, "pq\0\0\0\0\0", 8), strncpy(whole, "r", 0) == whole);
  memmove(text + 1, text, 4);
  memcpy(part, text, 6);
  printf("%s %lu %s\n", text, strxfrm(part, "collated", 0), strcpy(part, "end"));
}

static void comparisons(void) {
  printf("%d %d %d\n", sign(strcmp("a", "b")), sign(strcmp("b", "a")), strcmp("a", "a"));
  printf("%d %d %d\n", strncmp("abc", "abd", 2), sign(strncmp("abc", "abd", 3)), sign(strncmp("ab", "a", 9)));
  printf("%d %d\n", sign(strncmp("\377", "a", 1)), sign(memcmp("\377", "a", 1)));
  printf("%d %d\n", strncmp("x", "y", 0), sign(strcoll("a", "b")));
}

static void searches(void) {
  const char *text = "a man, a plan";
  printf("%s|%s|%s\n", strchr(text, 'm'), strrchr(text, 'a'), strstr(text, "a p"));
  printf("%d %d %d\n", strchr(text, 'z') == NULL, *strchr(text, 0), *strrchr(text, 0));
  printf("%lu %lu %s\n", strspn(text, " amn"), strcspn(text, ",p"), strpbrk(text, "pl"));
  printf("%d %d %d\n", strpbrk(text, "xyz") == NULL, strstr(text, "plant") == NULL, strstr("", "") != NULL);
  printf("%s %d\n", (char *)memchr(text, ',', 13), memchr(text, ',', 3) == NULL);
}

int main(void) {
  char words[] = "  one, two,,three ";
  copies();
  comparisons();
  searches();
  for (char *word = strtok(words, " ,"); word; word = strtok(NULL, " ,"))
    printf("<%s>", word);
  printf("%d\n", strtok(NULL, " ,") == NULL);
  return 0;
}
