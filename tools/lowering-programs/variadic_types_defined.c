//! uses functions with ...
//! defined
#include <stdio.h>
#include <stdarg.h>
struct node { int value; struct node *next; };
typedef int (*step)(int);
static int twice(int n) { return 2 * n; }
static int minus(int n) { return -n; }
static int apply(int n, ...) { va_list l; step s; va_start(l, n); while ((s = va_arg(l, step))) n = s(n); va_end(l); return n; }
static struct node *chain(struct node *first, ...) {
  va_list l; struct node *at = first;
  va_start(l, first);
  for (;;) { struct node *next = va_arg(l, struct node *); at->next = next; if (!next) break; at = next; }
  va_end(l);
  return first;
}
static long long widest(unsigned n, ...) { long long w = 0; va_list l; va_start(l, n);
  for (unsigned i = 0; i < n; i++) { long long v = va_arg(l, long long); if (v > w) w = v; } va_end(l); return w; }
int main(void) {
  struct node a = { 1 }, b = { 2 }, c = { 3 }; int sum = 0;
  for (struct node *at = chain(&a, &b, &c, (struct node *)0); at; at = at->next) sum = sum * 10 + at->value;
  printf("%d %d %d\n", sum, apply(3, twice, minus, (step)0), apply(1, (step)0));
  printf("%lld\n", widest(3, 5LL, 1LL << 40, -1LL));
  return 0;
}
