//! uses formats of printf
//! uses initializers
//! uses _Alignof
//! defined
#include <stdio.h>
#include <stdlib.h>
#include <stddef.h>
/* An arena over one allocation: alignment by _Alignof, nodes by compound literals. */
struct arena { unsigned char *base; size_t used, size; };
struct node { int key; struct node *left, *right; };
static void *take(struct arena *a, size_t size, size_t align) {
  size_t at = (a->used + align - 1) / align * align;
  if (at + size > a->size) return NULL;
  a->used = at + size;
  return a->base + at;
}
static struct node *insert(struct arena *a, struct node *n, int key) {
  if (!n) { n = take(a, sizeof *n, _Alignof(struct node)); if (n) *n = (struct node){ .key = key }; return n; }
  if (key < n->key) n->left = insert(a, n->left, key); else n->right = insert(a, n->right, key);
  return n;
}
static int walk(const struct node *n, int depth) {
  int count = 1;
  if (!n) return 0;
  count += walk(n->left, depth + 1);
  printf("%*s%d\n", depth * 2, "", n->key);
  return count + walk(n->right, depth + 1);
}
int main(void) {
  struct arena a = { .size = 4096, .base = malloc(4096) };
  struct node *root = NULL;
  if (!a.base) return 1;
  for (int i = 0; i < 8; i++) root = insert(&a, root, (int[]){ 5, 2, 8, 1, 9, 3, 7, 6 }[i]);
  printf("%d nodes, %zu bytes, aligned %d\n", walk(root, 0), a.used, (int)(a.used % _Alignof(struct node)));
  free(a.base);
  return 0;
}
