/* One past the end is as far as a pointer goes: the sum itself is undefined
   beyond it, with no access (C17 6.5.6p8). */
int x = 1;

int main(void) {
  int *end = &x + 1;
  int *further = end + 1;
  return x;
}
