//! uses formats of printf
//! uses formats of sprintf
//! defined
#include <stdio.h>
static char b[40];
static char *show(int n) { sprintf(b, "<%03d>", n); return b; }
int main(void) { int n = printf("%5d|%-8s|%d\n", printf("%3s\n", "in"), show(7), sprintf(b + 20, "%x", 255)); printf("%s %s\n", b, b + 20); return n; }
