/* Objects that live at one time share no byte (C17 6.2.4p2): the second
   request for a place for n, in the second call, would. */
static int down(int n) {
  return n ? down(n - 1) : 0;
}

int main(void) {
  return down(1);
}
