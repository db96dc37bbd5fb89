void put(int v);
int a[14400];
int b[14400];
int c[14400];
void mul(int *x, int *y, int *z, int n) {
  int i;
  int j;
  int k;
  for (i = 0; i < n; i++)
    for (j = 0; j < n; j++) {
      int s = 0;
      for (k = 0; k < n; k++) s += x[i * n + k] * y[k * n + j];
      z[i * n + j] = s;
    }
}
int main(void) {
  int i;
  for (i = 0; i < 14400; i++) { a[i] = i % 7; b[i] = i % 5; }
  mul(a, b, c, 120);
  put(c[7777]);
  return 0;
}
