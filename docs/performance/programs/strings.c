void put(int v);
unsigned char text[2048];
int length(unsigned char *s) {
  int n = 0;
  while (s[n] != 0) n++;
  return n;
}
int find(unsigned char *s, int c) {
  int i = 0;
  while (s[i] != 0 && s[i] != c) i++;
  return i;
}
int main(void) {
  int r;
  int i;
  int t = 0;
  for (i = 0; i < 2047; i++) text[i] = (unsigned char)(1 + i % 250);
  text[2047] = 0;
  for (r = 0; r < 1000; r++) {
    t += length(text);
    t += find(text + r, 251);
    t = t & 16777215;
  }
  put(t);
  return 0;
}
