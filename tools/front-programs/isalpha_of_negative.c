/* A char may be negative, and isalpha asks for an unsigned char (7.4p1). */
#include <ctype.h>

int main(void) {
  const char *text = "na\357ve";
  int letters = 0;
  for (; *text; text++)
    letters += isalpha(*text) != 0;
  return letters;
}
