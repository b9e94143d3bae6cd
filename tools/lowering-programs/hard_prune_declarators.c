//! uses what main does not reach
//! defined
static int one = 1, *unused_pointer = &one, two(void), three = 3;
static int two(void) { return 2; }
typedef int number, *pointer, row[2];
typedef double far;
int main(void) { row r = { one, three }; number n = r[1]; return n + two(); }
