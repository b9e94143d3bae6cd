//! defined
#include <stdio.h>
enum { W = 6, H = 5 };
static char now[H][W + 1] = { "......", "..#...", "..#...", "..#...", "......" };
static int around(int y, int x) { int n = 0; for (int dy = -1; dy <= 1; dy++) for (int dx = -1; dx <= 1; dx++) if (dy || dx) n += now[(y + dy + H) % H][(x + dx + W) % W] == '#'; return n; }
static void step(void) { char next[H][W + 1]; for (int y = 0; y < H; y++) { for (int x = 0; x < W; x++) { int n = around(y, x); next[y][x] = n == 3 || (n == 2 && now[y][x] == '#') ? '#' : '.'; } next[y][W] = 0; } for (int y = 0; y < H; y++) for (int x = 0; x <= W; x++) now[y][x] = next[y][x]; }
int main(void) { step(); for (int y = 0; y < H; y++) printf("%s\n", now[y]); return 0; }
