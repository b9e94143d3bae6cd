//! uses main's parameters
//! args x
//! defined
extern int printf(const char *, ...);
int main(const int argc, char **const argv) {
  if (argc == 2)
    printf("%s\n", *(argv + 1));
  else
    return 3;
}
