//! uses initializers
//! defined
#include <stdio.h>
struct row { char key[8]; int value; char more[2][3]; };
static const struct row rows[] = { "one", 1, "a", "b", { "two", .more = { [1] = "zz" } }, { { "six" }, { 6 } } };
int main(void) {
  char s[] = { "braced" };
  for (int i = 0; i < 3; i++)
    printf("%s %d %s %s\n", rows[i].key, rows[i].value, rows[i].more[0], rows[i].more[1]);
  printf("%s %lu\n", s, (unsigned long)sizeof s);
  return 0;
}
