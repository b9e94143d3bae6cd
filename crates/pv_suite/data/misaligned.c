/* An int stands at a multiple of four. The conversion to int * of any other
   address is undefined, before anything is read (C17 6.3.2.3p7). */
unsigned char bytes[8];

int main(void) {
  int *p = (int *)(bytes + 1);
  return 0;
}
