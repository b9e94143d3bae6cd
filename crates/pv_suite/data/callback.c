/* A function's name as an argument is a pointer to that function (C17
   6.3.2.1p4): for_each hands every price to whatever function it is given. */
static void for_each(const int *prices, int count, void (*act)(int, int *), int *result) {
  for (int i = 0; i < count; i++)
    act(prices[i], result);
}

static void add(int price, int *sum) {
  *sum += price;
}

static void keep_greatest(int price, int *greatest) {
  if (price > *greatest)
    *greatest = price;
}

int main(void) {
  int prices[] = {7, 9, 4}, sum = 0, greatest = 0;
  for_each(prices, 3, add, &sum);
  for_each(prices, 3, keep_greatest, &greatest);
  return sum * 10 + greatest;
}
