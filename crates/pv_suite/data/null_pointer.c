/* A null pointer reaches nothing (C17 6.5.3.2p4, 6.3.2.3p3). */
struct item {
  int price;
  struct item *next;
};

int main(void) {
  struct item last = {5, 0};
  struct item *at = &last;
  return at->next->price;
}
