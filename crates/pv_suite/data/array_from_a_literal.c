/* A literal that initialises an array is copied into it (C17 6.7.9p14), and
   the array may be written. */
int printf(const char *, ...);

int main(void) {
  char word[] = "cat";
  word[0] = 'b';
  printf("%s %lu\n", word, sizeof word);
  return 0;
}
