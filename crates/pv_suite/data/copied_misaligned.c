/* What stands at an odd place is copied out, and then it may be read
   (C17 6.2.6.1p4, 7.24.2.1p2). */
void *memcpy(void *, const void *, unsigned long);
unsigned char packet[5] = {7, 1, 2, 0, 0};

int main(void) {
  unsigned number;
  memcpy(&number, packet + 1, sizeof number);
  return number;
}
