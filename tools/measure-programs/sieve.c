/* a sieve of 500 numbers: 12 rounds */
char flag[500];

int main(void) {
  int count = 0;
  for (int r = 0; r < ROUNDS; r++) {
    count = 0;
    for (int i = 2; i < 500; i++)
      flag[i] = 1;
    for (int i = 2; i < 500; i++) {
      if (flag[i]) {
        count++;
        for (int j = i + i; j < 500; j += i)
          flag[j] = 0;
      }
    }
  }
  return count % 100;
}
