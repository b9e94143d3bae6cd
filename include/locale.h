/*
 * <locale.h>, C17 7.11: all of it, with the one locale "C". setlocale fails for another one (7.11.1.1p7).
 *
 * Brings three static objects: the texts "C", "." and "", and what localeconv tells.
 */
#ifndef __LOCALE_H
#define __LOCALE_H

#define NULL ((void *)0)
#define LC_CTYPE 0
#define LC_NUMERIC 1
#define LC_TIME 2
#define LC_COLLATE 3
#define LC_MONETARY 4
#define LC_ALL 6

struct lconv {
  char *decimal_point, *thousands_sep, *grouping, *int_curr_symbol, *currency_symbol;
  char *mon_decimal_point, *mon_thousands_sep, *mon_grouping, *positive_sign, *negative_sign;
  char int_frac_digits, frac_digits;
  char p_cs_precedes, p_sep_by_space, n_cs_precedes, n_sep_by_space, p_sign_posn, n_sign_posn;
  char int_p_cs_precedes, int_p_sep_by_space, int_n_cs_precedes, int_n_sep_by_space, int_p_sign_posn, int_n_sign_posn;
};

static char __locale_texts[3][2] = {"C", ".", ""};

static char *setlocale(int __category, const char *__name) {
  if (__category < LC_CTYPE || __category > LC_ALL || __category == 5)
    return NULL;
  return !__name || !*__name || (__name[0] == 'C' && !__name[1]) ? __locale_texts[0] : NULL;
}

/* What 7.11.2.1p2 asks for in the "C" locale: no number of it is available, which CHAR_MAX says. */
static struct lconv *localeconv(void) {
  static struct lconv __all = {
    __locale_texts[1], __locale_texts[2], __locale_texts[2], __locale_texts[2], __locale_texts[2], __locale_texts[2],
    __locale_texts[2], __locale_texts[2], __locale_texts[2], __locale_texts[2],
    127, 127, 127, 127, 127, 127, 127, 127, 127, 127, 127, 127, 127, 127
  };
  return &__all;
}

#endif
