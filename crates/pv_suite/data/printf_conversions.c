/* printf takes an argument for each conversion (C17 7.21.6.1p8); characters
   reach it as ints (6.5.2.2p6, p7). */
int printf(const char *, ...);

int main(void) {
  char letter = 'v';
  int count = printf("%d %u %x %c %s %%\n", -5, 5u, 255, letter, "text");
  printf("%ld %lu %lx %p\n", -5L, 5UL, 255L, (void *)0);
  return count;
}
