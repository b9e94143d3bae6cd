/* Pointers into two objects have no order (C17 6.5.8p5), though their
   addresses have one. */
int low[4];
int high[4];

int main(void) {
  return &low[3] < &high[0];
}
