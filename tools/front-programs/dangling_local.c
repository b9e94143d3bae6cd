#include <stdio.h>

static const char *digits(unsigned number) {
  char text[12];
  char *at = text + sizeof text;
  *--at = 0;
  do {
    *--at = (char)('0' + number % 10);
    number /= 10;
  } while (number);
  return at;
}

int main(void) {
  puts(digits(42));
  return 0;
}
