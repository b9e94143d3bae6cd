//! left a union that is initialized by a later member
union u { int i; char *p; };
int main(void) { union u v = { .p = 0 }; return v.p != 0; }
