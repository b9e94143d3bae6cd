/* area is declared and used, and nobody defines it (C17 6.9p5). */
int area(int width, int height);

int main(void) {
  return area(2, 3);
}
