//! uses formats of snprintf
//! defined
#include <stdio.h>
#include <string.h>
union view { char text[16]; unsigned char bytes[16]; };
int main(void) {
  union view v = { "" }; char *at = v.text; size_t room = sizeof v.text;
  for (int i = 0; room > 1 && i < 9; i++) { int n = snprintf(at, room, "%s%02X", i ? ":" : "", i * 17); if ((size_t)n >= room) break; at += n; room -= n; }
  printf("%s %d %lu\n", v.text, v.bytes[1], (unsigned long)room);
  return strlen(v.text);
}
