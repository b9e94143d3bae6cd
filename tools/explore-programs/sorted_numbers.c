/* Clean: an array is sorted, and no pointer leaves it. */
static int numbers[6] = {5, 3, 6, 1, 2, 4};

static void swap(int *a, int *b) {
  int held = *a;
  *a = *b;
  *b = held;
}

int main(void) {
  int *end = numbers + 6;
  for (int *last = end; last != numbers; last--)
    for (int *p = numbers; p + 1 < last; p++)
      if (*p > p[1])
        swap(p, p + 1);
  return numbers[0] * 10 + numbers[5];
}
