/* Writes without an order are defined where they are to different bytes
   (C17 6.5p2): it is the bytes that count, and not the names. */
int main(void) {
  int a[2] = {1, 2};
  int *p = a, *q = a + 1;
  return (*p = 3) + (*q = 4);
}
