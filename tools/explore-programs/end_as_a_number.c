/* The end of an array is kept as a number. Where another array begins there, of
   which the program knows the number too, the pointer that is made of it stands
   for either; the store settles it for the other one, and the step back leaves
   that (C17 6.5.6p8). */
static int row[2] = {4, 5};
static int next_row[2];

int main(void) {
  unsigned long end = (unsigned long)(row + 2);
  unsigned long next = (unsigned long)next_row;
  int *p = (int *)end;
  if (end == next)
    *p = 6;
  return *(p - 1);
}
