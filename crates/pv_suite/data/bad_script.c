/* A script names the places of requests, counted from 1. This one counts from
   0, in its third line, and is refused before the program is read on. */
int x;

int main(void) {
  return 0;
}
