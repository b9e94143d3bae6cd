/* An int has 32 bits: it can be shifted by 0 to 31 (C17 6.5.7p3). */
int main(void) {
  int width = 32;
  return 1 << width;
}
