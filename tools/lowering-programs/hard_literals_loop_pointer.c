//! uses compound literals
//! defined
struct n { int v; struct n *next; };
int main(void) {
  struct n *head = 0; int sum = 0, i = 0;
  while (i < 3) { head = &(struct n){ i, 0 }; head->v += 2; sum += head->v; i++; }
  for (i = 0; i < 2; i++) for (int *p = (int[]){ i, 5 }; p && sum < 100; p = 0) sum += p[0] + p[1];
  do sum += (&(struct n){ sum, 0 } == 0) + 1; while (0);
  return sum;
}
