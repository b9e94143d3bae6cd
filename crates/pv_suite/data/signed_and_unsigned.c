/* An int may be read by the unsigned type that belongs to it (C17 6.5p7), and
   by characters. */
int number = -2;

int main(void) {
  unsigned *whole = (unsigned *)&number;
  unsigned char *bytes = (unsigned char *)&number;
  return *whole == 4294967294u && bytes[0] == 254;
}
