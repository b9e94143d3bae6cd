/* Clean: an object's own address becomes an integer and a pointer again. Where
   it is another one's end too, the store settles it for the one that begins
   there. */
static int x = 1, y = 2;

int main(void) {
  unsigned long first = (unsigned long)&x;
  unsigned long second = (unsigned long)&y;
  *(int *)first += 3;
  *(int *)second += 4;
  return x * 10 + y;
}
