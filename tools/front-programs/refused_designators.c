struct point { int x, y; };

int main(void) {
  struct point point = {.y = 2, .x = 1};
  return point.x;
}
