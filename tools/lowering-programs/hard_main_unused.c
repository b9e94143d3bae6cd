//! left main has another type
extern int main(int argc, char *const *const argv_never_written) ;
int other(void) { return 3; }
int main(argc, argv) int argc; char *const *const argv; { (void)argv; return argc + other(); }
