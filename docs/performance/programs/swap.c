void put(int v);
int a[512];
void swap(int *x, int *y) { int t = *x; *x = *y; *y = t; }
int main(void) {
  int r;
  int i;
  for (i = 0; i < 512; i++) a[i] = i;
  for (r = 0; r < 3000; r++)
    for (i = 0; i < 511; i++) swap(a + i, a + i + 1);
  put(a[17]);
  return 0;
}
