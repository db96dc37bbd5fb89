void put(int v);
struct item { int key; int value; int count; };
struct item items[500];
int main(void) {
  int r;
  int i;
  int s = 0;
  for (i = 0; i < 500; i++) { items[i].key = i; items[i].value = i % 13; items[i].count = 0; }
  for (r = 0; r < 2000; r++)
    for (i = 0; i < 500; i++) {
      items[i].count = items[i].count + items[i].value;
      s += items[i].key & 3;
    }
  put(s);
  return 0;
}
