//! uses members without a name
//! defined
struct row { struct { int cells[2]; }; };
static struct row rows[2] = { { { { 1, 2 } } }, [1].cells[1] = 4 };
int main(void) { int s = 0; for (struct row *r = rows; r < rows + 2; r++) for (int i = 0; i < 2; i++) s = s * 3 + r->cells[i]; (&rows[0])->cells[0]++; return s + rows->cells[0]; }
