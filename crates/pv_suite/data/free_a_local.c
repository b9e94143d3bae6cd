/* What no allocation made can't be freed (C17 7.22.3.3p2). */
void free(void *);

int main(void) {
  int number = 1;
  free(&number);
  return number;
}
