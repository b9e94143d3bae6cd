//! left main has another type
int main(int argc, char **argv, char **environment) { return environment[0] == argv[argc]; }
