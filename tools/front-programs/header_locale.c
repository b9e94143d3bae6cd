/* <locale.h>: the locale "C" alone. */
#include <limits.h>
#include <locale.h>
#include <stdio.h>
#include <string.h>

int main(void) {
  struct lconv *all = localeconv();
  printf("%s %s %s\n", setlocale(LC_ALL, NULL), setlocale(LC_ALL, "C"), setlocale(LC_NUMERIC, NULL));
  printf("%d\n", setlocale(LC_ALL, "no such locale") == NULL);
  printf("%s %lu %lu\n", all->decimal_point, strlen(all->thousands_sep), strlen(all->currency_symbol));
  printf("%d %d\n", all->frac_digits == CHAR_MAX, all->int_n_sign_posn == CHAR_MAX);
  return 0;
}
