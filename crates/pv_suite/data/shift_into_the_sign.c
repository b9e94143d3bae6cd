/* Shifting a signed number to the left is multiplying, and the product has to
   fit (C17 6.5.7p4). */
int main(void) {
  unsigned top = 1u << 31;
  return top != 0 && 1 << 31;
}
