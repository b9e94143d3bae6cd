/* The lowest bit of an aligned address is free for a mark. It is set and
   cleared in an integer, which has no provenance; the object is exposed, so
   the pointer that is made last may reach it (C17 6.3.2.3p5, 6.2.8p1). */
int printf(const char *, ...);
typedef unsigned long word;
int value = 20;

int main(void) {
  word tagged = (word)&value | 1;
  int is_marked = tagged & 1;
  int *p = (int *)(tagged & ~1UL);
  printf("%d %d\n", is_marked, *p);
  return 0;
}
