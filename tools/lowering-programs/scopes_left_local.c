//! left it names 'local', which a block declares
int main(void) { struct local { int a; }; typedef struct local *p; struct local v = { 1 }; p q = &v; return q->a; }
