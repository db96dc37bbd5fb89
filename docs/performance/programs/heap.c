void put(int v);
int h[2048];
void sift(int *a, int i, int n) {
  int k = 2 * i + 1;
  int x = a[i];
  while (k < n) {
    if (k + 1 < n && a[k + 1] > a[k]) k = k + 1;
    if (a[k] <= x) break;
    a[i] = a[k];
    i = k;
    k = 2 * i + 1;
  }
  a[i] = x;
}
int main(void) {
  int r;
  int i;
  unsigned int x = 99u;
  for (r = 0; r < 30; r++) {
    for (i = 0; i < 2048; i++) { x = x * 1664525u + 1013904223u; h[i] = (int)(x >> 16); }
    for (i = 1023; i >= 0; i--) sift(h, i, 2048);
    for (i = 2047; i > 0; i--) { int t = h[0]; h[0] = h[i]; h[i] = t; sift(h, 0, i); }
    put(h[1000]);
  }
  return 0;
}
