/* The same script, and a program that doesn't ask (C17 7.22.3p1): it follows
   a null pointer (6.5.3.2p4). */
void *malloc(unsigned long);

int main(void) {
  int *first = malloc(4);
  int *second = malloc(4);
  *first = 3;
  *second = 4;
  return *first + *second;
}
