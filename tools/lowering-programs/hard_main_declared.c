//! uses main's parameters
//! args x y
//! defined
int main(int, char **);
int main(int, char *[]);
int (main(int n, char **v)) { return n + v[2][0]; }
