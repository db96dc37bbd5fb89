void put(int v);
unsigned char text[4096];
int main(void) {
  int r;
  int i;
  unsigned char c;
  unsigned int s = 0u;
  for (i = 0; i < 4096; i++) text[i] = (unsigned char)(i * 7);
  for (r = 0; r < 300; r++)
    for (i = 0; i < 4096; i++) {
      c = text[i];
      s = s + (c ^ 85u);
      text[i] = (unsigned char)(c + 1u);
    }
  put((int)(s & 65535u));
  return 0;
}
