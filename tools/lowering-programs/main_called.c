//! left the program names main itself
int main(int argc, char **argv) { return argc > 3 ? 0 : main(argc + 1, argv); }
