struct point { int x, y; };
union both { int i; char c[4]; };
struct deep { struct { struct { struct point p; int a[2]; } in; } out; const char *name; };
static long long table[20] = { 1, -2, 3 };
static _Bool flag(unsigned char raw)
{
  _Bool b = 1;

  *(unsigned char *)&b = raw;
  return b;
}
static int walk(const struct point *point, int n)
{
  struct point here = *point;
  union both u;
  struct deep d;
  int a[4][2][2];
  int (*row)[2][2] = a + 4;
  void (*handler)(int) = 0;
  unsigned short s = 65535;
  int k = n;

  u.i = 513;
  d.out.in.p = here;
  d.name = "text";
  a[0][0][0] = 5;
  { int k = 3; here.x = k; }
  { int k = 9, gone = 4; { int deeper = k; return flag(7) + deeper + gone; } }
}
int main(void)
{
  struct point p = { -1, 2 };
  int self = 0;
  int *q = &self + 1;

  return walk(&p, 3) + *q;
}
