#include "shapes.h"
#include <cstdio>
#include <cstdlib>

static __attribute__((noinline, cold)) void complain(const char *what) {
  std::fprintf(stderr, "odd: %s\n", what);
}

int parse(const char *text) {
  int total = 0;
  for (; *text; text++) {
    if (*text < '0' || *text > '9') {
      complain(text);
      if (*text == '!')
        std::abort();
      throw std::invalid_argument(text);
    }
    total = total * 10 + (*text - '0');
  }
  return total + counted() - counted() + 1;
}

long mixed(long x, int way) {
  Store<long> all;
  Store<std::string> texts;
  try {
    switch (way) {
    case 0: all.add(Power<2>::of(x)); break;
    case 1: all.add(Power<3>::of(x)); break;
    case 2: all.add(x ^ 0x5a5a); break;
    case 3: all.add(parse(std::to_string(x).c_str())); break;
    case 4: texts.add(std::string(x & 15, 'x')); break;
    default: all.add(all.at(way)); break;
    }
  } catch (const std::out_of_range &it) {
    texts.add(it.what());
  } catch (const std::exception &it) {
    complain(it.what());
    return -1;
  }
  return (long)all.sum([](long it) { return it * 0.5; }) + (long)texts.sum([](const std::string &it) { return it.size(); });
}
