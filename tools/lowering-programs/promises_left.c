//! left the argument is no array that is known to be long enough
static int sum(const int a[static 3]) { return a[0]; }
int main(void) { int two[2] = { 1, 2 }; return sum(two); }
