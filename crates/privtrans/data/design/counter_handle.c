// One-time codes: each is made of a key and a count, which must never come twice. The slave counts: don't do it so.
__attribute__((priv)) int load_key(int number);
void show(int code);

__attribute__((priv, declassify)) int code_of(__attribute__((priv)) int key, int count) {
  return (key * 31 + count * 17) % 1000;
}

int main(void) {
  int key = load_key(1);
  int count;
  for (count = 1; count <= 3; count++) show(code_of(key, count));
  return 0;
}
