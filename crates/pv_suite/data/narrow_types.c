/* Small types are promoted to int before they are added, so that nothing
   overflows here; the conversion back takes the value modulo 256
   (C17 6.3.1.1p2, 6.3.1.3p2). */
int main(void) {
  unsigned char a = 200, b = 100;
  int sum = a + b;
  a += b;
  return sum * 100 + a;
}
