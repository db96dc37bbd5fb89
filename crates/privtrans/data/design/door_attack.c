// What a slave of door.c that was taken over may say: it leaves start out, and guesses 0.
__attribute__((priv)) int load_code(int door);
__attribute__((priv)) void open_door(int door);
int next_guess(void);

int code;

__attribute__((priv)) void start(void) { code = load_code(1); }

__attribute__((priv, declassify)) int try_code(int guess) {
  if (guess != code) return 0;
  open_door(1);
  return 1;
}

int main(void) { return !try_code(0); }
