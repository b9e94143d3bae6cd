//! uses compound literals
//! defined
#include <stdio.h>
struct p { int x, y; };
struct seg { struct p a, b; const char *name; };
static int *table = (int[]){ 1, 2, 3 };
static struct seg *root = &(struct seg){ .b = { .y = 4 }, .name = "root" };
static int dot(struct p a, struct p b) { return a.x * b.x + a.y * b.y; }
static int len(const struct seg *s) { return s->b.x - s->a.x; }
static int sum(const int *a, int n) { int s = 0; while (n--) s += a[n]; return s; }
int main(void) {
  int n = 5;
  struct p *q = 0;
  printf("%d\n", dot((struct p){ 1, n }, (struct p){ .y = 3 }));
  printf("%d\n", len(&(struct seg){ { 1, 2 }, .b.x = n, .name = "seg" }));
  printf("%d %d\n", sum((int[]){ 1, 2, n }, 3), sum((const int[4]){ 7 }, 4));
  for (int i = 0; i < 3; i++) {
    struct p *r = &(struct p){ i, i };
    r->x++;
    printf("%d %d\n", r->x, r->y);
    if (i == 1) q = &(struct p){ 8, 9 }, printf("%d\n", q->y);
    else for (int *k = (int[]){ 3, 0 }; *k; k++) printf("k%d\n", *k);
  }
  switch (n) { case 5: q = &(struct p){ 5 }; printf("%d\n", q->x); }
  while ((q = &(struct p){ n, n - 3 })->y > 0) n--;
  char *s = (char[]){ "hello" };
  s[0] = 'j';
  printf("%s %s %d %d %lu\n", s, (char *[]){ "zero", "one" }[1], *&(int){ 6 }, table[1] + root->b.y, (unsigned long)sizeof((int[]){ 1, 2 }));
  return ((struct p){ n, 1 }).x + (struct seg){ .a = { 1, 2 } }.a.y;
}
