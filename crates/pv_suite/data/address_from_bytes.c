/* Reading the bytes of a pointer as numbers exposes what it points to. So an
   address that is computed from them leads back to x (C17 6.2.6.1p4,
   6.3.2.3p5). */
int x = 9;

int main(void) {
  int *p = &x;
  const unsigned char *bytes = (const unsigned char *)&p;
  unsigned long address = 0;
  int i;
  for (i = 7; i >= 0; i--)
    address = address * 256 + bytes[i];
  return *(int *)address;
}
