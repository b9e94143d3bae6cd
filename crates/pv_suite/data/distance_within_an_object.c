/* The difference of two pointers counts elements, and either may be one past
   the end (C17 6.5.6p9). */
int marks[8];

int main(void) {
  int *begin = marks;
  int *end = marks + 8;
  return (end - begin) * 10 + (begin - end < 0);
}
