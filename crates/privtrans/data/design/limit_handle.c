// Three wrong guesses lock a user. The count lies with the slave: don't do it so.
struct user { int number; __attribute__((priv)) int pin; int fails; };
__attribute__((priv)) int load_pin(int number);
int next_guess(void);
void answer(int ok, int fails);

__attribute__((priv, declassify)) int try_pin(__attribute__((priv, declassify)) struct user *u, int guess) {
  if (u->fails >= 3) return 0;
  if (u->pin == guess) return 1;
  u->fails++;
  return 0;
}

int main(void) {
  struct user u;
  int i, ok;
  u.number = 1;
  u.fails = 0;
  u.pin = load_pin(1);
  for (i = 0; i < 5; i++) {
    ok = try_pin(&u, next_guess());
    answer(ok, u.fails);
  }
  return 0;
}
