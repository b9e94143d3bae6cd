/* A difference is that of two elements of one array (C17 6.5.6p9). */
int low[4];
int high[4];

int main(void) {
  return high - low != 0;
}
