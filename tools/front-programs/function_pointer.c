static int successor(int number) {
  return number + 1;
}

int main(void) {
  int (*operation)(int) = successor;
  return operation(1);
}
