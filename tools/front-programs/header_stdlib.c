#include <errno.h>
#include <limits.h>
#include <stdio.h>
#include <stdlib.h>

static void read_number(const char *text, int base) {
  char *end;
  long number = strtol(text, &end, base);
  printf("%ld and '%s'\n", number, end);
}

static void numbers(void) {
  printf("%d %d %d %d\n", atoi(" \t-42x"), atoi("+7"), atoi("none"), atoi("-2147483648") == INT_MIN);
  printf("%ld %ld\n", atol("2147483648"), (long)atoll("-9223372036854775808"));
  read_number("0x7fz", 16);
  read_number("0x", 0);
  read_number(" +0127 8", 0);
  read_number("-zZ", 36);
  read_number("102", 2);
  read_number(" - 1", 10);
  printf("%lu %lu\n", strtoul("-1", NULL, 10), (unsigned long)strtoull("18446744073709551615", NULL, 10));
}

static void told(int is_limit, int error) {
  printf("%d %d\n", is_limit, errno == error);
  errno = 0;
}

static void limits(void) {
  errno = 0;
  told(strtol("9223372036854775807", NULL, 10) == LONG_MAX, 0);
  told(strtol("-9223372036854775808", NULL, 10) == LONG_MIN, 0);
  told(strtol("9223372036854775808", NULL, 10) == LONG_MAX, ERANGE);
  told(strtoll("-99999999999999999999", NULL, 10) == LLONG_MIN, ERANGE);
  told(strtoul("18446744073709551616", NULL, 10) == ULONG_MAX, ERANGE);
}

static void quotients(void) {
  div_t by = div(-7, 2);
  ldiv_t longer = ldiv(7, -2);
  printf("%d %d %ld %ld %ld\n", by.quot, by.rem, longer.quot, longer.rem, (long)lldiv(-9, 4).rem);
  printf("%d %ld %ld\n", abs(-3), labs(LONG_MIN + 1), (long)llabs(-5));
}

int main(void) {
  int *numbers_held = calloc(3, sizeof *numbers_held);
  char *aligned = aligned_alloc(16, 32);
  if (!numbers_held || !aligned)
    return EXIT_FAILURE;
  numbers_held = realloc(numbers_held, 4 * sizeof *numbers_held);
  printf("%d %d\n", numbers_held[2], (unsigned long)aligned % 16 == 0);
  free(numbers_held);
  free(aligned);
  numbers();
  limits();
  quotients();
  srand(7);
  int first = rand();
  srand(7);
  printf("%d %d\n", first == rand(), first >= 0 && first <= RAND_MAX);
  printf("%d\n", getenv("A name that no environment has") == NULL);
  fflush(stdout);
  _Exit(EXIT_SUCCESS);
}
