/* A pointer may reach the object that it was made from, and a pointer that is
   computed from it may reach the same one (C17 6.5.6p8, 6.5.3.2p4). */
int x = 1;
int y = 2;

int main(void) {
  int *p = &x;
  int *q = p + 0;
  *q = 5;
  return x + y;
}
