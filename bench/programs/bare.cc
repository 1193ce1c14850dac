// For a system whose library isn't here.
static int told;

template <class T> struct Most {
  T value{};
  void add(T other) { if (value < other) value = other; }
};

inline int twice(int x) { return 2 * x; }

int part(int n) {
  Most<int> most;
  Most<long> longest;
  for (int k = 0; k < n; k++) {
    most.add(twice(k) ^ 5);
    longest.add(k * 3L);
  }
  return most.value + (int)longest.value;
}

struct Told {
  Told() { told = part(3); }
} first;

long other(long n, long way) {
  auto add = [&](long x) { return x + n; };
  switch (way) {
  case 0: return add(1);
  case 1: return add(n) * 2;
  case 2: return part((int)n);
  default: return add(n * n) + told;
  }
}
