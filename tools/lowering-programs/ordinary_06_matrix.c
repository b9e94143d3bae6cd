//! defined
#include <stdio.h>
enum { N = 3 };
static void multiply(int to[N][N], int a[N][N], int b[N][N]) {
  for (int i = 0; i < N; i++) for (int k = 0; k < N; k++) { int s = 0; for (int j = 0; j < N; j++) s += a[i][j] * b[j][k]; to[i][k] = s; }
}
int main(void) { int a[N][N] = { { 1, 2, 3 }, { 4, 5, 6 }, { 7, 8, 9 } }, b[N][N]; multiply(b, a, a); for (int i = 0; i < N; i++) printf("%d %d %d\n", b[i][0], b[i][1], b[i][2]); return 0; }
