/* strcmp and memcmp compare bytes as unsigned chars (C17 7.24.4p1): 200 is
   more than 100, though as a char it is less. */
int strcmp(const char *, const char *);
int memcmp(const void *, const void *, unsigned long);
char high[2] = {(char)200, 0};
char low[2] = {100, 0};

int main(void) {
  int as_chars = high[0] > low[0];
  int as_strings = strcmp(high, low) > 0;
  return as_chars * 100 + as_strings * 10 + (memcmp(low, high, 2) < 0);
}
