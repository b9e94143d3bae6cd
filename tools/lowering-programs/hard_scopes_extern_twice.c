//! uses declarations in a block
//! defined
static int hidden = 3;
static int first(void) { extern int hidden; extern int later[]; return hidden + later[1]; }
int later[2] = { 4, 5 };
int main(void) { int second(void); int n = 1; { int second(void); n += second(); } return n + first() + second(); }
int second(void) { return hidden * 2; }
