//! defined
#include <stdio.h>
#include <string.h>
static char *trim(char *s) { while (*s == ' ') s++; char *e = s + strlen(s); while (e > s && e[-1] == ' ') *--e = 0; return s; }
static void reverse(char *s) { for (char *e = s + strlen(s); s < --e; s++) { char c = *s; *s = *e; *e = c; } }
int main(void) { char a[] = "  padded  "; char *t = trim(a); reverse(t); printf("[%s] %d\n", t, (int)strlen(t)); return 0; }
