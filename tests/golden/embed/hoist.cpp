// Moves operations of arith out of the loops of a function by handles, without reading text: an operation that uses a
// value of its loop is refused, and stays. Prints the module, and before it the uses of the first value that was moved.
#include "mlir_work.hpp"
#include <fstream>
#include <iostream>
#include <iterator>
#include <optional>

using namespace workbench;

// Moves what it can out of a loop, and returns the operation that was moved first.
static std::optional<Operation> hoist(Session &session, const Operation &loop) {
  std::optional<Operation> first;
  for (const Operation op : loop.regions()[0].block()->operations()) {
    if (op.name().text().rfind("arith.", 0) != 0)
      continue;
    try {
      session.move(op, before(loop));
      first = first ? first : op;
    } catch (const Refused &) {
    }
  }
  return first;
}

int main(int, char **argv) {
  std::ifstream file(argv[1], std::ios::binary);
  Session session(std::string{std::istreambuf_iterator<char>(file), {}});
  const auto loop = session.name("scf.for");
  std::optional<Operation> first;
  for (const Operation op : session.walk())
    if (loop && op.name() == *loop)
      if (const auto moved = hoist(session, op); moved && !first)
        first = moved;
  if (first)
    for (const Use use : first->results()[0].uses())
      std::cout << "%v" << first->number() << ".0 #" << use.owner.number() << " " << use.operand << "\n";
  for (const auto &row : session.rows("diagnostics"))
    std::cout << "a row of diagnostics: " << row[0] << "\n";
  std::cout << session.text("print");
}
