void put(int v);
int a[2000];
int main(void) {
  int r;
  int i;
  int s = 0;
  for (i = 0; i < 2000; i++) a[i] = i * 37 % 1000;
  for (r = 0; r < 1000; r++)
    for (i = 0; i < 2000; i++)
      if (a[i] > 100 && a[i] < 900 && i != r) s++;
  put(s);
  return 0;
}
