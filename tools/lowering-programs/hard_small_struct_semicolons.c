//! uses a ; that ends nothing
//! defined
struct a { ; int x; struct { int y;; }; ; };
enum e { A, B };;
int f(void); ; int f(void) { return B; };
int main(void) { struct a v = { 1, { 2 } }; ; return v.x + v.y + f(); }
