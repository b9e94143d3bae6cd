/* a `switch` of five cases: 5000 rounds */
int main(void) {
  int s = 0;
  for (int r = 0; r < ROUNDS; r++) {
    switch (r % 5) {
    case 0:
      s++;
      break;
    case 1:
      s--;
      break;
    case 2:
      s += 2;
      break;
    case 3:
      s -= 2;
      break;
    default:
      s = 0;
    }
  }
  return s != 0;
}
