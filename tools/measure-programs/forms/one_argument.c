/* a call of `void inc(int)`: 4000 rounds */
int g;
void inc(int d) {
  g = (g + d) % 1000;
}

int main(void) {
  for (int r = 0; r < ROUNDS; r++)
    inc(r % 7);
  return g % 100;
}
