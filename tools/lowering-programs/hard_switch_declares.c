//! uses a switch without braces
//! fault undefined clause=6.5.7p3 reason=count line=4
int main(void) { int n = 40;
  switch (n) default: if (n > 3) for (int i = 0; i < 2; i++) switch (i) case 1: n = 1 << n
    * i;
  return n; }
