// A door that opens to its code. The slave has a handle for the code and hands it in: don't do it so.
__attribute__((priv)) int load_code(int door);
__attribute__((priv)) void open_door(int door);
int next_guess(void);

__attribute__((priv, declassify)) int try_code(__attribute__((priv)) int code, int guess) {
  if (guess != code) return 0;
  open_door(1);
  return 1;
}

int main(void) {
  int code = load_code(1);
  int tries = 0;
  while (tries < 3 && !try_code(code, next_guess())) tries++;
  return tries;
}
