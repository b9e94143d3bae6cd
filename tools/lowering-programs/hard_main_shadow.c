//! uses main's parameters
//! args 5
//! defined
int argc = 7;
static int get(void) { return argc; }
int main(int count, char **argv) { int argc = count; { char **argv = 0; if (!argv) argc += get(); } return argc + argv[1][0]; }
