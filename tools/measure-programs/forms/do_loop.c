/* `do .. while`: 6000 rounds */
int main(void) {
  int s = 0, r = 0;
  do {
    s = (s + r) % 1000;
    r++;
  } while (r < ROUNDS);
  return s % 100;
}
