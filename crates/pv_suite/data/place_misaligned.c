/* A long stands at a multiple of eight (C17 6.2.8p1), and the script says
   otherwise. */
long x;

int main(void) {
  return 0;
}
