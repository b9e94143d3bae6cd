//! uses initializers
//! defined
#include <stdio.h>
enum colour { RED, GREEN, BLUE, COLOURS };
struct point { int x, y; };
struct shape { const char *name; struct point at[2]; unsigned char bits[4]; union { long l; char c; } u; };
static const char *const names[COLOURS] = { [BLUE] = "blue", [RED] = "red", [GREEN] = "green" };
static struct shape shapes[] = {
  { "line", { { 1, 2 }, { 3, 4 } }, { 0xff } },
  { .name = "dot", .at = { [1] = { .y = 7 } }, .bits = { [3] = 9, [1] = 8 }, .u.l = 5 },
  "flat", 1, 2, 3, 4, 5, 6, 7, 8, { 11 },
  [4].name = "last",
};
static int grid[][3] = { 1, 2, 3, 4, 5, 6, 7 };
static int sparse[] = { [10] = 1, 2, [3] = 4 };
int main(void) {
  struct shape s = { .at[0].x = 5, .at[1] = { 6 }, 8, 9 };
  struct point p = {}, q = { .y = grid[1][1] };
  int n = { 3 };
  for (int i = 0; i < COLOURS; i++)
    printf("%s\n", names[i]);
  for (unsigned i = 0; i < sizeof shapes / sizeof shapes[0]; i++) {
    struct shape *at = &shapes[i];
    printf("%s %d %d %d %d %d %d %d %d %ld\n", at->name ? at->name : "none", at->at[0].x, at->at[0].y, at->at[1].x, at->at[1].y,
           at->bits[0], at->bits[1], at->bits[2], at->bits[3], at->u.l);
  }
  printf("%d %d %d %d %d\n", grid[2][0], grid[2][2], sparse[11], sparse[3], sparse[9]);
  printf("%lu %lu\n", (unsigned long)sizeof grid, (unsigned long)sizeof sparse);
  printf("%d %d %d %d %d %d %d %d\n", s.at[0].x, s.at[1].x, s.at[1].y, s.bits[0], p.x, p.y, q.y, n);
  return s.u.c;
}
