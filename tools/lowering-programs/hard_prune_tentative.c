//! uses what main does not reach
//! defined
extern int table[];
int count;
static int *first(void) { return &table[0]; }
int count = 2;
int table[] = { 1, 2, 3 };
static int never(void) { return *first(); }
int main(void) { return table[count] + (int)(sizeof table / sizeof table[0]); }
