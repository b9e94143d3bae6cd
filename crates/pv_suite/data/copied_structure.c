/* Assigning a structure copies its bytes whole: what the pointer in it may
   reach is copied too (C17 6.5.16.1p2, 6.2.6.1p4). */
struct holder {
  char tag;
  int *at;
};
int x = 8;

int main(void) {
  struct holder a = {'a', &x};
  struct holder b;
  b = a;
  *b.at += 1;
  return x;
}
