/* `!x`, `-s`, `~r`: 4000 rounds */
int main(void) {
  int s = 0;
  for (int r = 0; r < ROUNDS; r++) {
    if (!(r % 3))
      s++;
    s = -s + ~r % 5;
  }
  return s & 63;
}
