#include "shapes.h"
#include <cstdlib>

namespace {
struct Square : Shape {
  double side;
  explicit Square(double side) : side(side) { counted(); }
  double area() const override { return side * side; }
};
struct Circle : Shape {
  double radius;
  explicit Circle(double radius) : radius(radius) { counted(); }
  double area() const override { return 3.14159 * radius * radius; }
};
struct Told {
  std::string text;
  Told(const char *text) : text(text) { counted(); }
  ~Told() { counted(); }
};
Told first("the first"), second("the second");
} // namespace

std::map<std::string, int> known = {{"square", 1}, {"circle", 2}, {"none", parse("0")}};

std::unique_ptr<Shape> shape_of(const std::string &text) {
  auto it = known.find(text.substr(0, text.find(' ')));
  if (it == known.end())
    throw std::invalid_argument("unknown: " + text);
  auto number = [&](double least) {
    double read = std::strtod(text.c_str() + it->first.size(), nullptr);
    return read < least ? throw std::range_error(text) : read;
  };
  switch (it->second) {
  case 1:
    return std::make_unique<Square>(number(1));
  case 2:
    return std::make_unique<Circle>(number(0.5));
  default:
    return nullptr;
  }
}
