/* strcpy writes the terminating zero too: four bytes into an array of three
   (C17 7.24.2.3p2, 7.24.1p2). */
char *strcpy(char *, const char *);
char small[3];

int main(void) {
  strcpy(small, "abc");
  return 0;
}
