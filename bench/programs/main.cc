#include "shapes.h"
#include <algorithm>
#include <functional>
#include <iostream>

template <class T> static T most(const std::vector<T> &all) {
  T most{};
  for (auto &it : all)
    if (most < it)
      most = it;
  return most;
}

int main(int count, char **words) {
  Store<std::unique_ptr<Shape>> shapes;
  std::vector<std::string> odd;
  std::vector<long> numbers;
  for (int k = 1; k < count; k++) {
    try {
      if (auto it = shape_of(words[k]))
        shapes.add(std::move(it));
      else
        numbers.push_back(mixed(counted(), k % 6));
    } catch (const std::invalid_argument &it) {
      odd.push_back(it.what());
    } catch (const std::exception &it) {
      std::cerr << it.what() << '\n';
      return 1;
    }
  }
  long seen[8] = {0};
  long least = 0, greatest = 0;
  for (int k = 1; k < count; k++) {
    const char *word = words[k];
    while (*word) {
      seen[*word & 7]++;
      if (*word < 'a' || *word > 'z')
        least += 3 * k;
      else if (*word == 'e')
        greatest += seen[*word & 7] * k;
      else
        greatest ^= *word;
      word++;
    }
    if (least > greatest) {
      long kept = least;
      least = greatest;
      greatest = kept;
    }
  }
  for (int k = 0; k < 8; k++) {
    if (seen[k] == 0)
      continue;
    if (seen[k] & 1)
      least += seen[k] * (k + 1);
    else
      greatest -= seen[k] * (8 - k);
    seen[k] = least * 2 + greatest * 3 - seen[(k + 3) & 7];
    seen[(k + 1) & 7] += seen[k] / 5 + least % 7;
    seen[(k + 2) & 7] -= seen[k] / 3 - greatest % 9;
    seen[(k + 5) & 7] ^= seen[(k + 4) & 7] << (k & 3);
  }
  numbers.push_back(least);
  numbers.push_back(greatest + seen[0] + seen[1] * seen[2] - seen[3] / (seen[4] | 1) + (seen[5] ^ seen[6]) + (seen[7] >> 2));
  std::sort(numbers.begin(), numbers.end(), [](long a, long b) { return a > b; });
  std::function<double(const std::unique_ptr<Shape> &)> area = [](auto &it) { return it->area(); };
  std::cout << shapes.sum(area) << ' ' << most(odd) << ' ' << most(numbers) << ' ' << counted() << '\n';
  return shapes.size() > 3 ? (int)shapes.at(3)->area() : 0;
}
