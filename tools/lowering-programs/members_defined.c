//! uses members without a name
//! defined
#include <stdio.h>
#include <stddef.h>
struct value {
  enum { NUMBER, TEXT, PAIR } kind;
  union {
    int number;
    const char *text;
    struct { struct value *first, *second; };
  };
};
typedef struct { const struct { int x; }; struct { char c[3]; } named; } odd;
static int sum(struct value *v) {
  switch (v->kind) {
  case NUMBER: return v->number;
  case TEXT: return v->number;
  default: return sum(v->first) + sum(v->second);
  }
}
int main(void) {
  struct value one = { NUMBER, { 1 } }, text = { .kind = TEXT, .number = 65 };
  struct value pair = { .kind = PAIR };
  pair.first = &one;
  pair.second = &text;
  odd o = { 5, { "ab" } };
  printf("%d %d %s %lu\n", sum(&pair), o.x, o.named.c, (unsigned long)sizeof pair);
  printf("%lu %lu\n", (unsigned long)offsetof(struct value, second), (unsigned long)(sizeof(o)));
  return (&pair)->first->number;
}
