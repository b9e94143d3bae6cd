/* A prototype tells how an argument is converted: 300 becomes an unsigned
   char on its way (C17 6.5.2.2p7). Two functions call each other. */
static int is_odd(unsigned char n);

static int is_even(unsigned char n) {
  return n == 0 || is_odd(n - 1);
}

static int is_odd(unsigned char n) {
  return n != 0 && is_even(n - 1);
}

int main(void) {
  return is_even(300) * 10 + is_odd(7);
}
