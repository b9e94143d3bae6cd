#include <ctype.h>
#include <limits.h>
#include <stdio.h>

/* What kinds a character is of, a bit for each. */
static int kinds(int character) {
  int alphabet = !!isalpha(character) | !!isalnum(character) << 1 | !!isdigit(character) << 2;
  int letters = !!isupper(character) << 3 | !!islower(character) << 4 | !!isxdigit(character) << 5;
  int seen = !!isprint(character) << 6 | !!isgraph(character) << 7 | !!ispunct(character) << 8;
  int blank = !!isspace(character) << 9 | !!isblank(character) << 10 | !!iscntrl(character) << 11;
  return alphabet | letters | seen | blank;
}

int main(void) {
  int changes = 0, before = -1;
  for (int character = -1; character <= UCHAR_MAX; character++) {
    int now = kinds(character);
    if (now != before)
      printf("%d:%x ", character, now);
    before = now;
    changes += toupper(character) != character;
    changes += tolower(character) != character;
  }
  printf("\n%d %c%c %c%c\n", changes, toupper('q'), toupper('Q'), tolower('#'), tolower('Z'));
  return 0;
}
