/* A structure that carries its functions: they are copied with it, and two
   structures of one type may act in two ways (C17 6.5.2.2p1, 6.5.16.1p1). */
struct counter {
  int value;
  int (*next)(int);
};

static int by_one(int n) {
  return n + 1;
}

static int doubled(int n) {
  return n * 2;
}

static int count(struct counter *counter) {
  counter->value = counter->next(counter->value);
  return counter->value;
}

int main(void) {
  struct counter first = {3, by_one}, second;
  second = first;
  second.next = doubled;
  return count(&first) * 10 + count(&second);
}
