/* %ld wants a long, and 1 is an int (C17 7.21.6.1p9). */
int printf(const char *, ...);

int main(void) {
  printf("one\n");
  printf("%ld\n", 1);
  return 0;
}
