/* The pointers are four bytes apart and their elements eight bytes long: there
   is no whole number of elements between them (C17 6.5.6p9). */
struct pair {
  int first;
  int second;
};
int numbers[4];

int main(void) {
  struct pair *p = (struct pair *)numbers;
  struct pair *q = (struct pair *)(numbers + 1);
  return q - p;
}
