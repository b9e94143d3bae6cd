/* A program begins with main (C17 5.1.2.2.1p1). */
int twice(int n) {
  return n + n;
}
