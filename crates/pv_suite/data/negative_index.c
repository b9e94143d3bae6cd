/* a[i] is *(a + i), so an index is judged as a sum is: it may be negative
   within the object (C17 6.5.2.1p2, 6.5.6p8), and not in front of it. */
int row[4] = {10, 11, 12, 13};

int main(void) {
  int *middle = row + 2;
  int before = middle[-1];
  return before + middle[-3];
}
