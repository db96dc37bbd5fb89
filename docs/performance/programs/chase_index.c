void put(int v);
int next[5000];
int main(void) {
  int i;
  int at = 0;
  for (i = 0; i < 5000; i++) next[i] = (i * 7 + 13) % 5000;
  for (i = 0; i < 5000000; i++) at = next[at];
  put(at);
  return 0;
}
