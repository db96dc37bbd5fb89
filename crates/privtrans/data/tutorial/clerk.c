// A cash machine. Each line of the input is an account, a PIN and an amount.
struct account { int number; __attribute__((priv)) int pin; int balance; int tries; };

__attribute__((priv)) int load_pin(int number);  // from the bank
int next_byte(void);               // from the keys, -1 at the end
void pay(int number, int amount);  // the cash box
void refuse(int number, int why);  // the display

struct account accounts[3];

int read_number(void) {
  int c;
  int n = 0;
  while ((c = next_byte()) >= '0' && c <= '9') {
    if (n < 100000) n = n * 10 + (c - '0');
  }
  return c == -1 ? -1 : n;
}

void open_accounts(struct account *a, int count) {
  int i;
  for (i = 0; i < count; i++) {
    a[i].number = i + 1;
    a[i].pin = load_pin(i + 1);
    a[i].balance = 100;
    a[i].tries = 3;
  }
}

__attribute__((priv, declassify)) int fits(const struct account *a, int pin) {
  return a->pin == pin;
}

// For the clerk: whether there is such an account, and its PIN
__attribute__((priv, declassify)) int known(int number) {
  return number >= 1 && number <= 3;
}

__attribute__((priv, declassify)) int pin_of(int number) {
  return load_pin(number);
}

// 0: the amount is paid, 1: no try is left, 2: the PIN is wrong, 3: the amount is too much
int draw(struct account *a, int pin, int amount) {
  if (a->tries == 0) return 1;
  a->tries--;
  if (!fits(a, pin)) return 2;
  a->tries = 3;
  if (amount > a->balance) return 3;
  a->balance -= amount;
  return 0;
}

int main(void) {
  int number, pin, amount, why;
  open_accounts(accounts, 3);
  while ((number = read_number()) >= 0) {
    pin = read_number();
    amount = read_number();
    why = 4;
    if (number >= 1 && number <= 3) why = draw(&accounts[number - 1], pin, amount);
    if (why == 0) pay(number, amount);
    else refuse(number, why);
  }
  return 0;
}
