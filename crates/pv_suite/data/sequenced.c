/* The comma operator, && and ?: have a sequence point behind their first
   operand (C17 6.5.17p2, 6.5.13p4, 6.5.15p4). */
int main(void) {
  int i = 0;
  int j = (i++, i++, i);
  int both = i++ == 2 && i == 3;
  return j * 100 + (i++ ? i : 0) * 10 + both;
}
