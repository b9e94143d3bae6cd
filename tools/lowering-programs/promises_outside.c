//! uses [static n]
//! fault undefined clause=6.5.3.2p4 reason=outside line=3
static int third(const char a[static 2]) { return a[2]; }
int main(void) { return third("a"); }
