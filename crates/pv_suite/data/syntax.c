/* The second declaration is none: an operand is missing (C17 6.5.6p1, 6.7p1).
   One external declaration stands in front of it. */
int x = 1;
int y = x +;

int main(void) {
  return x;
}
