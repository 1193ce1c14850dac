// resolver: what Breakpad's own reader answers from symbol files. A line of standard input is `>` and the name of a file, or a
// hexadecimal address in the file before it, of which PATH|LINE is printed, or - if there is no answer.
#include <cstdio>
#include <cstdlib>
#include <deque>
#include <fstream>
#include <iostream>
#include <iterator>
#include <memory>
#include <string>

#include "google_breakpad/processor/basic_source_line_resolver.h"
#include "google_breakpad/processor/stack_frame.h"
#include "processor/basic_code_module.h"

using namespace google_breakpad;

int main() {
  std::unique_ptr<BasicCodeModule> module;
  std::unique_ptr<BasicSourceLineResolver> resolver;
  for (std::string line; std::getline(std::cin, line);) {
    if (line[0] == '>') {
      std::ifstream file(line.substr(1), std::ios::binary);
      std::string text{std::istreambuf_iterator<char>(file), {}};
      module = std::make_unique<BasicCodeModule>(0, ~0ULL, "app", "0", "app", "0", "1");
      resolver = std::make_unique<BasicSourceLineResolver>();
      if (!resolver->LoadModuleUsingMapBuffer(module.get(), text)) return 1;
      continue;
    }
    StackFrame frame;
    frame.instruction = std::strtoull(line.c_str(), nullptr, 16);
    frame.module = module.get();
    std::deque<std::unique_ptr<StackFrame>> inlined;
    resolver->FillSourceLineInfo(&frame, &inlined);
    // An answer without a path and with line 0 can't be told from none.
    if (frame.source_file_name.empty() && frame.source_line == 0)
      std::puts("-");
    else
      std::printf("%s|%d\n", frame.source_file_name.c_str(), frame.source_line);
  }
}
