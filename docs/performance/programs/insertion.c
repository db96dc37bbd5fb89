void put(int v);
int a[600];
int main(void) {
  int i;
  int j;
  int r;
  unsigned int x = 7u;
  for (r = 0; r < 20; r++) {
    for (i = 0; i < 600; i++) { x = x * 1103515245u + 12345u; a[i] = (int)(x >> 9 & 32767u); }
    for (i = 1; i < 600; i++) {
      int v = a[i];
      j = i - 1;
      while (j >= 0 && a[j] > v) { a[j + 1] = a[j]; j = j - 1; }
      a[j + 1] = v;
    }
    put(a[300]);
  }
  return 0;
}
