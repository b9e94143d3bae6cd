/* The script says where x lies, but nothing in the program ever exposed it.
   A number that happens to be its address gives a pointer to nothing
   (C17 6.3.2.3p5), and the access is undefined (6.5.3.2p4). */
int x = 3;

int main(void) {
  int *p = (int *)0x100000000UL;
  return *p;
}
