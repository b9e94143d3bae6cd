//! left a type that a block declares
int main(void) { struct s { int n; }; struct s *p = &(struct s){ 1 }; return p->n; }
