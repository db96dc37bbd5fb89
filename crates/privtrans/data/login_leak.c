struct login { int user; int tries; int ok; };
__attribute__((priv)) int load_hash(int user);
int next_byte(void);
void audit(int user, int tries, int ok);
struct login state;

int mix(int h, int c) { return (h * 31 + c) % 65536; }

__attribute__((priv, declassify)) int verify(int hash, const char *word, int n) {
  int i;
  int h = 0;
  for (i = 0; i < n; i++) h = mix(h, word[i]);
  return h == hash;
}

int read_line(char *to, int room) {
  int c;
  int n = 0;
  while ((c = next_byte()) != -1 && c != '\n') {
    if (n < room) to[n++] = c;
  }
  return n;
}

int main(void) {
  char name[8];
  char word[32];
  int n;
  int hash;
  n = read_line(name, 8);
  state.user = n > 0 ? name[0] - '0' : 0;
  hash = load_hash(state.user);
  while (!state.ok) {
    n = read_line(word, 32);
    state.tries++;
    state.ok = verify(hash, word, n);
    audit(state.user, state.tries, state.ok);
  }
  return 0;
}
