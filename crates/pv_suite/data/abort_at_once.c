/* abort ends the program and says that something went wrong
   (C17 7.22.4.1p2). */
void abort(void);
int most = 3;

int main(void) {
  int found = 4;
  if (found > most)
    abort();
  return found;
}
