struct shelf { int numbers[8]; int values[8]; int count; };
__attribute__((priv)) int weight(int word);
int next_byte(void);
void mail(int number, int spam);

void put(struct shelf *s, int number, int value) {
  if (s->count < 8) {
    s->numbers[s->count] = number;
    s->values[s->count] = value;
    if (s->values[s->count] != 0) s->count++;
  }
}

int get(const struct shelf *s, int number) {
  int i;
  for (i = 0; i < s->count; i++) {
    if (s->numbers[i] == number) return s->values[i];
  }
  return 0;
}

__attribute__((priv, declassify)) int is_spam(__attribute__((priv)) int first,
                                              __attribute__((priv)) int second) {
  return first + second > 100;
}

int read_number(void) {
  int c;
  int n = 0;
  while ((c = next_byte()) >= '0' && c <= '9') {
    if (n < 1000) n = n * 10 + (c - '0');
  }
  return c == -1 ? -1 : n;
}

int main(void) {
  struct shelf known;
  int i;
  int first;
  int mails = 0;
  for (i = 0; i < 8; i++) put(&known, i, weight(i));
  while ((first = read_number()) >= 0) {
    mail(++mails, is_spam(get(&known, first), get(&known, read_number())));
  }
  return 0;
}
