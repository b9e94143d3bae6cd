/* On one way through sign no value is returned, and the caller uses it
   (C17 6.9.1p12). */
static int sign(int n) {
  if (n > 0)
    return 1;
  if (n < 0)
    return -1;
}

int main(void) {
  return sign(5) + sign(0);
}
