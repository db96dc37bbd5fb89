// What a slave of door_handle.c that was taken over may say: a code of its own.
__attribute__((priv)) int load_code(int door);
__attribute__((priv)) void open_door(int door);
int next_guess(void);

__attribute__((priv, declassify)) int try_code(__attribute__((priv)) int code, int guess) {
  if (guess != code) return 0;
  open_door(1);
  return 1;
}

int main(void) {
  int code = 5;
  return !try_code(code, 5);
}
