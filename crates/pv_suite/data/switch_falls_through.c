/* A switch goes to its label and from there on through the next ones, until a
   break (C17 6.8.4.2p4). */
static int days_left(int day) {
  int left = 0;
  switch (day) {
  case 5:
    left++;
  case 6:
    left++;
  case 7:
    left++;
    break;
  default:
    left = 9;
  }
  return left;
}

int main(void) {
  return days_left(5) * 100 + days_left(7) * 10 + days_left(1);
}
