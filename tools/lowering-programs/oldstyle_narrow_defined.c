//! uses definitions of the old style
//! defined
int narrow(c, s) signed char c; unsigned short s; { return c + s; }
int main(void) { return narrow(300, 65537) == 45; }
