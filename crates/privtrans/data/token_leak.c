struct token { int user; __attribute__((priv)) int secret; int tries; };
__attribute__((priv)) int fetch(int user);
int next_byte(void);
void answer(int user, int tries, int ok);
struct token tokens[4];

int is_right(const struct token *t, int guess) {
  return t->secret == guess;
}

void fill(struct token *t, int count) {
  int i;
  for (i = 0; i < count; i++) {
    t[i].user = i;
    t[i].secret = fetch(i);
    t[i].tries = 2;
  }
}

int read_number(void) {
  int c;
  int n = 0;
  while ((c = next_byte()) >= '0' && c <= '9') {
    if (n < 100000) n = n * 10 + (c - '0');
  }
  return c == -1 ? -1 : n;
}

int main(void) {
  struct token *t;
  int user;
  int guess;
  fill(tokens, 4);
  while ((user = read_number()) >= 0) {
    guess = read_number();
    t = &tokens[user % 4];
    if (t->tries > 0) {
      t->tries--;
      answer(t->user, t->tries, is_right(t, guess));
    }
  }
  return 0;
}
