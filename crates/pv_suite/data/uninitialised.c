/* An automatic object without initialiser has no value yet (C17 6.7.9p10,
   6.3.2.1p2). */
int main(void) {
  int a;
  return a;
}
