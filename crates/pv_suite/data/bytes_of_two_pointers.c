/* Half of the bytes come from a pointer to x, half from a pointer to y. They
   are no copy of either, so the number that they spell is converted, and it
   is the address of y; but neither object was exposed (C17 6.3.2.3p5). */
void *memcpy(void *, const void *, unsigned long);
int x = 1, y = 2;

int main(void) {
  int *p = &x, *q = &y, *mixed;
  memcpy(&mixed, &q, 4);
  memcpy((char *)&mixed + 4, (char *)&p + 4, 4);
  return *mixed;
}
