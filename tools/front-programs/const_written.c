static const int limit = 10;

static void raise(const int *what) {
  *(int *)what = 11;
}

int main(void) {
  int free_to_change = 1;
  raise(&free_to_change);
  raise(&limit);
  return free_to_change;
}
