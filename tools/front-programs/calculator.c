/* Sums and products with parentheses, read by recursive descent. */
#include <ctype.h>
#include <stdio.h>
#include <stdlib.h>

static const char *at;

static long sum(void);

static long factor(void) {
  if (*at == '(') {
    at++;
    long value = sum();
    at++;
    return value;
  }
  char *end;
  long value = strtol(at, &end, 10);
  at = end;
  return value;
}

static long product(void) {
  long value = factor();
  while (*at == '*' || *at == '/') {
    if (*at++ == '*')
      value *= factor();
    else
      value /= factor();
  }
  return value;
}

static long sum(void) {
  long value = product();
  while (*at == '+' || *at == '-') {
    if (*at++ == '+')
      value += product();
    else
      value -= product();
  }
  return value;
}

int main(void) {
  const char *sums[] = {"1+2*3", "(1+2)*3", "2*(3+4)*5-6/4", "10/(5-5)"};
  for (int i = 0; i < 4; i++) {
    at = sums[i];
    printf("%s = %ld\n", sums[i], sum());
  }
  return 0;
}
