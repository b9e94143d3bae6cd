/* choose returns a pointer to a function, which is called where it is returned
   (C17 6.5.2.2p1). Its declarator is read from the name outwards (6.7.6p4). */
static int plus(int n) {
  return n + 1;
}

static int minus(int n) {
  return n - 1;
}

static int (*choose(int up))(int) {
  return up ? plus : minus;
}

int main(void) {
  return choose(1)(10) * 100 + (*choose(0))(10);
}
