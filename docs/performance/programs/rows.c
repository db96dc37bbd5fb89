void put(int v);
int m[2500];
int main(void) {
  int r;
  int i;
  int j;
  int s = 0;
  for (i = 0; i < 2500; i++) m[i] = i % 11;
  for (r = 0; r < 500; r++)
    for (i = 0; i < 50; i++) {
      int *row = m + i * 50;
      for (j = 0; j < 50; j++) s += row[j];
    }
  put(s);
  return 0;
}
