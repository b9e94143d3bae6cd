//! uses formats of printf
//! defined
#include <stdio.h>
typedef unsigned char byte;
static const char *name(int n) { return n ? "long name" : ""; }
int main(void) {
  byte bytes[] = "bytes";
  char three[3] = { 'x', 'y', 'z' };
  printf("%s|%10s|%-10s|%.2s|%10.2s|%-10.2s|%c|%3c|%-3c|\n", "abc", "abc", "abc", "abc", "abc", "abc", 'x', 'y', 'z');
  printf("%-*d|%*d|%*d|%.*d|%.*s|%*s|%-*.*s|%0*d|%.*s|%.*d\n", 6, -42, 6, 42, -6, 7, 4, 5, 2, "abc", 5, "abc", 6, 2, "abc", 7, 9, -1, "all", -1, 3);
  for (int i = 0; i < 3; i++)
    printf("%8s" "|%-4.3s|"
           "%1s\n", name(i), three, (char *)bytes + i);
  printf("%d %s%5s%s\n", printf("%3s|%-3s|", "in", ""), "a", "b", "c");
  printf("%.3s\n", three);
  return printf("%3c%c|%-2c", 0, 0, 'q');
}
