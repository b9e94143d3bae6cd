/* A loop that ends one past the last element: that pointer is compared and
   never followed (C17 6.5.6p8, 6.5.9p6). */
int prices[5] = {3, 1, 4, 1, 5};

int main(void) {
  int sum = 0;
  const int *price;
  for (price = prices; price != prices + 5; price++)
    sum += *price;
  return sum;
}
