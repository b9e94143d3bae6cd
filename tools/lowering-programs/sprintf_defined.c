//! uses formats of sprintf
//! uses formats of snprintf
//! defined
#include <stdio.h>
#include <string.h>
static char *twice(const char *s) { static char all[40]; sprintf(all, "%s%s", s, s); return all; }
int main(void) {
  char buffer[100], other[10];
  int k = sprintf(buffer, "%d-%s-%5.1s|%c|%-4x|%*s|%-*d|", -42, "text", "zz", 'q', 42u, 4, "w", -3, 5);
  printf("%d %s\n", k, buffer);
  k = snprintf(other, sizeof other, "%s%d", "abc", 123456789);
  printf("%d %s %d\n", k, other, snprintf(0, 0, "%08.3d %+ld%%", 5, 5L));
  k = sprintf(buffer + strlen(buffer), "%s", "");
  printf("%d %s %s\n", k, buffer, twice("ab"));
  for (int i = 0, at = 0; i < 3; i++) { at += snprintf(other + at, sizeof other - at, "%i,", i * 40); puts(other); }
  snprintf(other, 1, "x%sy", "z");
  return sprintf(buffer, "%.*s%c%s", 3, buffer + 50 * 0 == buffer ? "abcdef" : "", 0, "g") + strlen(other) + strlen(buffer);
}
