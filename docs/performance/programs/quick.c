void put(int v);
int data[3000];
void sort(int *a, int lo, int hi) {
  int i = lo;
  int j = hi;
  int p = a[(lo + hi) / 2];
  while (i <= j) {
    while (a[i] < p) i++;
    while (a[j] > p) j--;
    if (i <= j) {
      int t = a[i];
      a[i] = a[j];
      a[j] = t;
      i++;
      j--;
    }
  }
  if (lo < j) sort(a, lo, j);
  if (i < hi) sort(a, i, hi);
}
int main(void) {
  int r;
  int i;
  unsigned int x = 12345u;
  for (r = 0; r < 60; r++) {
    for (i = 0; i < 3000; i++) {
      x = x * 1103515245u + 12345u;
      data[i] = (int)(x >> 8 & 65535u);
    }
    sort(data, 0, 2999);
    put(data[1500]);
  }
  return 0;
}
