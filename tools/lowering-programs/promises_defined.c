//! uses [static n]
//! defined
struct matrix { int cells[9]; };
static int sum(const int cells[static 9]);
static int sum(const int cells[static 9]) { int s = 0; for (int i = 0; i < 9; i++) s += cells[i]; return s; }
int main(void) { struct matrix m = { { 1, 2, 3 } }; int ten[10] = { 4 }; return sum(m.cells) * 10 + sum(ten); }
