/* a hash in `unsigned`: 4000 rounds */
int main(void) {
  unsigned h = 2166136261u;
  for (unsigned long i = 0; i < ROUNDS; i++) {
    h = (h ^ (i & 255u)) * 16777619u;
    h = (h << 5) | (h >> 27);
  }
  return (int)(h % 100u);
}
