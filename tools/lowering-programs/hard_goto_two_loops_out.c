//! uses goto
//! defined
int main(void) {
  int n = 0, i, k;
  for (i = 0; i < 5; i++) {
    for (k = 0; k < 5; k++) {
      switch (i * k) { case 6: goto next; case 12: goto done; case 2: continue; default: break; }
      while (n >= 0) { n++; if (n % 3 == 0) break; if (n > 40) goto done; if (n % 7 == 0) goto next; }
    }
  next:
    n += 2;
    if (n % 2) continue;
    n++;
  }
done:
  return n * 10 + i + k;
}
