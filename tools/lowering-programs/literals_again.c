//! uses compound literals
//! defined
struct s { int n; struct s *next; };
int main(void) {
  int n = 0, sum = 0;
  for (struct s *p = &(struct s){ 3 }; p->n; p->n--) {
    struct s *q = &(struct s){ n, p };
    q->n += 10;
    sum += q->n + q->next->n;
    n++;
    do sum += *(int[]){ n } = 5; while ((int){ 0 });
  }
  return sum;
}
