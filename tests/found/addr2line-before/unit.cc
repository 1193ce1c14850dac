// Compiled as several units, of whose copies of f the linker keeps one.
__attribute__((noinline)) inline int f(int n) {
  asm(".fill 512, 1, 0x90");
  return n;
}
int UNIT(int n, char **) { return f(n); }
