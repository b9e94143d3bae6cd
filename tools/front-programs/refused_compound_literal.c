struct point { int x, y; };

static int sum(const struct point *point) {
  return point->x + point->y;
}

int main(void) {
  return sum(&(struct point){1, 2});
}
