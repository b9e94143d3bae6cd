/* xorshift in `unsigned long`: 4000 rounds */
int main(void) {
  unsigned long x = 88172645463325252ul;
  for (int i = 0; i < ROUNDS; i++) {
    x ^= x << 13;
    x ^= x >> 7;
    x ^= x << 17;
  }
  return (int)(x % 100ul);
}
