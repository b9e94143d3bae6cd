/* The switch jumps over the declaration: the object is there, and has no value
   (C17 6.2.4p6, 6.8.4.2p7). */
int main(void) {
  switch (2) {
    int n = 7;
  case 1:
    return 0;
  case 2:
    return n;
  }
  return 1;
}
