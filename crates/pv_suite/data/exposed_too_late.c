/* What an integer becomes is settled when it is converted: x is exposed one
   line too late for p (C17 6.3.2.3p5, 6.5.3.2p4). */
int x = 3;

int main(void) {
  int *p = (int *)0x100000000UL;
  unsigned long address = (unsigned long)&x;
  int *q = (int *)address;
  return *q + *p;
}
