// One-time codes: each is made of a key and a count, which must never come twice. The monitor counts.
__attribute__((priv)) int load_key(int number);
void show(int code);

int key;
int count;

__attribute__((priv)) void start(void) { key = load_key(1); }

__attribute__((priv, declassify)) int next_code(void) {
  count++;
  return (key * 31 + count * 17) % 1000;
}

int main(void) {
  int i;
  start();
  for (i = 0; i < 3; i++) show(next_code());
  return 0;
}
