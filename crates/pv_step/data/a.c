int main(void) {
  int *p;
  { int a = 1; p = &a; }
  { int b = 2; }
  return *p;
}
