// Moves invariant operations out of loops, as `mlir-opt -loop-invariant-code-motion` does, without parsing text.
#include "mlir_work.hpp"
#include <algorithm>
#include <fstream>
#include <iostream>
#include <set>
using namespace workbench;

// Returns an operand that is an integer constant.
static std::optional<Integer> constant(Session &s, const Operation &op, std::size_t operand) {
  const Value value = op.operands()[operand];
  if (!value.is_result() || s.name("arith.constant") != value.owner().name())
    return std::nullopt;
  return value.owner().attribute("value")->integer();
}
// Returns whether an operation has no undefined behavior and ends, so it may run if the loop doesn't.
static bool is_speculatable(Session &s, const Operation &op) {
  const auto is = [&](const char *name) { return s.name(name) == op.name(); };
  const bool is_signed = is("arith.divsi") || is("arith.ceildivsi") || is("arith.floordivsi");
  if (is_signed || is("arith.divui") || is("arith.ceildivui")) {
    const auto divisor = constant(s, op, 1);
    return divisor && !divisor->is_zero() && !(is_signed && divisor->is_minus_one());
  }
  const auto step = is("scf.for") ? constant(s, op, 2) : std::nullopt;
  const Operations inside = op.walk();
  return !is("scf.while") && (!is("scf.for") || (step && step->high == 0 && step->low == 1)) &&
         std::all_of(inside.begin(), inside.end(), [&](Operation it) { return it == op || is_speculatable(s, it); });
}
// Returns whether a value is made inside an operation.
static bool is_inside(const Value &value, const Operation &around) {
  std::optional<Operation> at = value.is_result() ? value.owner().parent() : value.owner();
  for (; at && *at != around; at = at->parent()) {}
  return at.has_value();
}
// Returns whether an operation uses only values that are made inside it or outside of the loop.
static bool is_invariant(const Operation &op, const Operation &loop) {
  for (const Operation inner : op.walk())
    for (const Value value : inner.operands())
      if (!is_inside(value, op) && is_inside(value, loop))
        return false;
  return true;
}
int main(int, char **argv) {
  std::ifstream file(argv[1], std::ios::binary);
  Session s(std::string{std::istreambuf_iterator<char>(file), {}});
  std::set<std::uint32_t> effects; // the operations with effects, also unknown ones
  for (const auto &row : s.rows(MLIR_WORK_EFFECTS))
    effects.insert(row[0].value.operation);
  std::vector<Operation> loops; // inner loops first
  for (const Operation op : s.walk())
    if (s.name("scf.for") == op.name() || s.name("scf.while") == op.name())
      loops.insert(loops.begin(), op);
  for (const Operation loop : loops)
    for (const Region region : loop.regions())
      for (const Operation op : region.block()->operations())
        if (op.next() && (op.name().text().rfind("arith.", 0) == 0 || !effects.count(op)) && // no terminator
            is_speculatable(s, op) && is_invariant(op, loop))
          s.move(op, before(loop));
  std::cout << s.text("print");
}
