//! uses initializers
//! defined
struct list { struct list *next; int n[3]; };
int main(void) {
  struct list l = { .next = &l, { sizeof l / sizeof(int), [2] = 5 } };
  int a[3] = { [0] = (a + 1 == &a[1]), [2] = a == &a[0] };
  return l.next->n[0] + l.n[2] + l.next->next->n[1] + a[2] + a[0];
}
