//! uses members without a name
//! defined
struct outer { struct { union { struct { unsigned char r, g, b, a; }; unsigned char all[4]; }; int n; }; };
static struct outer table[2] = { { { { { 1, 2, 3, 4 } }, 5 } }, { .r = 0, 6, .n = 7 } };
int main(void) {
  int sum = 0;
  struct outer copy = table[0], *at = table;
  for (int i = 0; i < 4; i++) sum += copy.all[i];
  at[1].g = 8;
  return sum + at->n + (at + 1)->all[1] + table[1].r;
}
