//! uses a switch without braces
//! defined
int main(void) {
  int n = 0;
  for (int i = 0; i < 6; i++)
    switch (i % 3)
    case 1:
      if (i > 3) continue;
      else { n += 10; break; }
  switch (n) n = 99;
  switch (n) default: while (n < 40) n += 7;
  switch (n) { case 45: n = 1; { _Static_assert(1, "inner"); } }
  return n;
}
