//! uses compound literals
//! defined
#include <stdio.h>
struct list { int value; const struct list *next; };
static const struct list *fixed = &(const struct list){ 1, &(const struct list){ 2, &(const struct list){ .value = 3 } } };
typedef int (*step)(int);
static int twice(int n) { return 2 * n; }
struct op { step f; const char *name; unsigned char bits[3]; };
static void show(const struct list *l) { for (; l; l = l->next) printf("%d ", l->value); printf("\n"); }
static int apply(struct op o, int n) { printf("%s %d\n", o.name, o.bits[1]); return o.f(n); }
int main(void) {
  int n = 4;
  show(fixed);
  show(&(struct list){ n, &(struct list){ n + 1, fixed } });
  return apply((struct op){ twice, "twice", { 1, n } }, *(const int *)&(const int){ 9 }) + apply((struct op){ .name = "none", .f = twice }, n);
}
