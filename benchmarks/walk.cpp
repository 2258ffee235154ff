// Walks a module of N operations once, 100,000 if no number is given, by the table of a session: name, operands, types
// of the results, and all uses of the results of each operation. Prints the seconds of the walk, and what it counted,
// as walk.c does.
//
// usage: walk [N [none]]    `none`: opens the session only
#include "mlir_work.hpp"

#include <chrono>
#include <cstdio>
#include <cstdlib>
#include <string>

// The module of walk.c.
static std::string module(std::size_t count) {
  std::string text;
  for (std::size_t k = 0; k + 1 < count; k++) {
    const std::string place = "%" + std::to_string(k) + " = ";
    if (k < 2 || k % 6 == 0)
      text += place + "\"arith.constant\"() <{value = " + std::to_string(k % 100) + " : i32}> : () -> i32\n";
    else
      text += place + "\"arith." + (k % 2 ? "addi" : "muli") + "\"(%" + std::to_string(k - 1) + ", %" +
              std::to_string(k - 2) + ") <{overflowFlags = #arith.overflow<none>}> : (i32, i32) -> i32\n";
  }
  return text;
}

int main(int argc, char **argv) {
  workbench::Session session(module(argc > 1 ? std::strtoul(argv[1], nullptr, 10) : 100000));
  std::uint64_t names = 0, operands = 0, types = 0, uses = 0;
  const auto begun = std::chrono::steady_clock::now();
  if (argc < 3)
    session.table().each([&](const workbench::Table::Row &row) {
      names += row.name;
      operands += row.operands.size();
      for (const auto result : row.results) {
        types += result.type;
        uses += result.uses.size();
      }
    });
  const std::chrono::duration<double> seconds = std::chrono::steady_clock::now() - begun;
  std::printf("%.4f s, names %llu, operands %llu, types %llu, uses %llu\n", seconds.count(), (unsigned long long)names,
              (unsigned long long)operands, (unsigned long long)types, (unsigned long long)uses);
}
