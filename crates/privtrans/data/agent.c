__attribute__((priv)) int load_key(int number);
int next_byte(void);
void reply(int number, int signature);

__attribute__((priv, declassify)) int sign(__attribute__((priv)) int key,
                                           const char *word, int n) {
  int i;
  unsigned int h = (unsigned int)key;
  for (i = 0; i < n; i++) h = (h ^ (unsigned int)word[i]) * 16777619u;
  return (int)(h >> 8);
}

int read_number(void) {
  int c;
  int n = 0;
  while ((c = next_byte()) >= '0' && c <= '9') {
    if (n < 1000) n = n * 10 + (c - '0');
  }
  return c == -1 ? -1 : n;
}

int read_word(char *to, int room) {
  int c;
  int n = 0;
  while ((c = next_byte()) != -1 && c != '\n') {
    if (n < room) to[n++] = c;
  }
  return n;
}

int main(void) {
  char word[32];
  int number;
  int key;
  int n;
  while ((number = read_number()) >= 0) {
    n = read_word(word, 32);
    key = load_key(number);
    reply(number, sign(key, word, n));
  }
  return 0;
}
