// Takes dead operations away, one at a time: after each it asks the analysis again, which was told of the erasure.
//
// usage: dead MODULE
#include "mlir_work.hpp"

#include <fstream>
#include <iostream>
#include <iterator>
#include <string>

int main(int argc, char **argv) {
  if (argc != 2)
    return 2;
  std::ifstream file(argv[1], std::ios::binary);
  if (!file)
    return 2;
  const std::string module{std::istreambuf_iterator<char>(file), {}};
  try {
    workbench::Session session(module);
    unsigned long erased = 0;
    for (;;) {
      const auto rows = session.report("dead");
      if (rows.empty())
        break;
      // The last row is of an operation that none of the others uses: `#N`.
      session.erase(static_cast<std::uint32_t>(std::stoul(rows.back().substr(1))));
      ++erased;
    }
    std::cout << session.text("print") << "// " << erased << " erased\n";
  } catch (const workbench::Refused &refused) {
    std::cerr << refused.what() << "\n";
    return 1;
  }
}
