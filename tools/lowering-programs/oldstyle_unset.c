//! uses definitions of the old style
//! fault indeterminate line=6
static int first(a, s) char a; const char *s; { return a + s[0]; }
int main(void) { char unset, word[2] = "w";
  return
    first(unset, word);
}
