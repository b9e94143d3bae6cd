/* Equality looks at addresses alone: one past the end of left equals the
   beginning of right where the script puts them side by side (C17 6.5.9p6). */
int left[2];
int right[2];

int main(void) {
  return left + 2 == right;
}
