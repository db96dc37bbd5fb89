// Three wrong guesses lock a user. The pins and the counts are the monitor's.
struct user { int pin; int fails; };
__attribute__((priv)) int load_pin(int number);
int next_guess(void);
void answer(int ok);

struct user users[4];

__attribute__((priv)) void start(void) {
  int i;
  for (i = 0; i < 4; i++) users[i].pin = load_pin(i);
}

__attribute__((priv, declassify)) int try_pin(int number, int guess) {
  if (number < 0 || number >= 4) return 0;
  if (users[number].fails >= 3) return 0;
  if (users[number].pin == guess) return 1;
  users[number].fails++;
  return 0;
}

int main(void) {
  int i;
  start();
  for (i = 0; i < 5; i++) answer(try_pin(1, next_guess()));
  return 0;
}
