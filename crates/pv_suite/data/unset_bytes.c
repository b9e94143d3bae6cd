/* Characters without a value may be copied as they are; the sum is the first
   operation that wants their value (C17 3.19.2, 6.7.9p10). */
int main(void) {
  unsigned char a, b;
  b = a;
  return b + 1;
}
