// Moves invariant operations out of the loops of a module, as `mlir-opt -loop-invariant-code-motion` does.
#include "mlir_work.hpp"
#include <algorithm>
#include <fstream>
#include <iostream>
#include <iterator>

using namespace workbench;

// Returns the number of an operand that is a constant, or an empty text.
static std::string constant(const Operation &op, std::size_t operand) {
  const Value value = op.operands()[operand];
  if (!value.is_result() || value.owner().name() != "arith.constant")
    return "";
  const std::string text = value.owner().attribute("value")->text(); // 3 : i32
  return text.substr(0, text.find(' '));
}
// Returns whether an operation has no effects and no undefined behavior, so it may run if the loop doesn't.
static bool is_movable(const Operation &op) {
  const std::string name = op.name().text();
  if (name.find("divui") != name.npos || name.find("divsi") != name.npos) {
    const std::string divisor = constant(op, 1);
    return !divisor.empty() && divisor != "0" && (divisor != "-1" || name.find("divui") != name.npos);
  }
  const bool is_known = name.rfind("arith.", 0) == 0 || name == "scf.if" || name == "scf.yield";
  const Operations inside = op.walk();
  return (is_known || (name == "scf.for" && constant(op, 2) == "1")) &&
         std::all_of(inside.begin(), inside.end(), [&](Operation it) { return it == op || is_movable(it); });
}
// Returns whether a value is made inside an operation.
static bool is_inside(const Value &value, const Operation &around) {
  std::optional<Operation> at = value.is_result() ? value.owner().parent() : value.owner();
  while (at && *at != around)
    at = at->parent();
  return at.has_value();
}
// Returns whether an operation uses only values that are made inside it or outside of the loop.
static bool is_invariant(const Operation &op, const Operation &loop) {
  for (const Operation inner : op.walk())
    for (const Value value : inner.operands())
      if (!is_inside(value, op) && is_inside(value, loop))
        return false;
  return true;
}

int main(int, char **argv) {
  std::ifstream file(argv[1], std::ios::binary);
  Session session(std::string{std::istreambuf_iterator<char>(file), {}});
  std::vector<Operation> loops;
  for (const Operation op : session.walk())
    if (op.name() == "scf.for" || op.name() == "scf.while")
      loops.push_back(op);
  std::reverse(loops.begin(), loops.end()); // inner loops first
  for (const Operation loop : loops)
    for (const Region region : loop.regions())
      for (const Operation op : region.block()->operations())
        if (op.next() && is_movable(op) && is_invariant(op, loop)) // the terminator has no next operation
          session.move(op, before(loop));
  std::cout << session.text("print");
}
