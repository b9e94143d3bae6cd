/* A function itself has no size: the operand of sizeof keeps its designator
   (C17 6.5.3.4p1, 6.3.2.1p4). */
static int one(void) {
  return 1;
}

int main(void) {
  return sizeof one;
}
