//! uses definitions of the old style
//! defined
#include <string.h>
static int count();
static unsigned long length(s) const char *s; { return strlen(s); }
static int count(v, n, c) const void *v; unsigned n; int c; { const char *s = v; int k = 0; while (n--) k += s[n] == c; return k; }
int main(void) { char text[] = "banana"; void *v = text; return count(text, 6u, 'a') + (int)length(v) + count(v, 3u, 97); }
