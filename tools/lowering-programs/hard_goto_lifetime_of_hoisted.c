//! uses goto
//! fault undefined clause=6.2.4p2 reason=ended line=13
static int *kept;
static int f(int n) {
  if (n > 5) goto end;
  int local = n;
  kept = &local;
  n = *kept + 1;
end:
  return n;
}
int main(void) { int n = f(1); n +=
    *kept; return n; }
