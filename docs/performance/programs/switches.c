void put(int v);
int main(void) {
  int i;
  int s = 0;
  for (i = 0; i < 3000000; i++) {
    switch (i % 5) {
      case 0: s += 1; break;
      case 1: s += 3; break;
      case 2: s -= 2; break;
      case 3: s ^= 5; break;
      default: s += i & 1; break;
    }
  }
  put(s);
  return 0;
}
