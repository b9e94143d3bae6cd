/* The string fills its array without a zero (C17 6.7.9p14), so that strlen
   reads on behind it (7.24.6.3p2, 7.24.1p2). */
unsigned long strlen(const char *);
char code[3] = "abc";

int main(void) {
  return strlen(code);
}
