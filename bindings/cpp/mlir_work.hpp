// C++ over mlir_work.h: a session closes itself, a refusal is an exception, a mark rolls back unless it is kept, and
// operations, values, regions and blocks are light handles with ranges.
// docs/EMBED.md shows how to build and use it. The rules for threads and lifetimes are in mlir_work.h.
#pragma once

#include "mlir_work.h"

#include <algorithm>
#include <cstddef>
#include <cstdint>
#include <iterator>
#include <new>
#include <optional>
#include <random>
#include <stdexcept>
#include <string>
#include <string_view>
#include <utility>
#include <vector>

namespace workbench {

using Spot = mlir_work_spot;

inline mlir_work_value result(std::uint32_t operation, std::uint32_t place = 0) {
  return {operation, MLIR_WORK_RESULT, place};
}
inline mlir_work_value argument(std::uint32_t operation, std::uint32_t region, std::uint32_t place) {
  return {operation, region, place};
}
inline Spot before(std::uint32_t operation) { return {MLIR_WORK_BEFORE, operation, 0}; }
inline Spot after(std::uint32_t operation) { return {MLIR_WORK_AFTER, operation, 0}; }
inline Spot start(std::uint32_t operation, std::uint32_t region = 0) { return {MLIR_WORK_START, operation, region}; }
inline Spot end(std::uint32_t operation, std::uint32_t region = 0) { return {MLIR_WORK_END, operation, region}; }

class Session;
class Operation;
class Operations;
class Region;
class Block;

// A range of `count` items; item k is `get(k)`, which is called when the item is read.
template <class Get> class Indexed {
public:
  class iterator {
  public:
    using iterator_category = std::input_iterator_tag;
    using value_type = decltype(std::declval<Get>()(std::size_t{}));
    using difference_type = std::ptrdiff_t;
    using pointer = void;
    using reference = value_type;

    iterator(const Get *get, std::size_t place) : get_(get), place_(place) {}
    value_type operator*() const { return (*get_)(place_); }
    iterator &operator++() { return ++place_, *this; }
    void operator++(int) { ++place_; }
    bool operator==(const iterator &other) const { return place_ == other.place_; }
    bool operator!=(const iterator &other) const { return place_ != other.place_; }

  private:
    const Get *get_;
    std::size_t place_;
  };

  Indexed(std::size_t count, Get get) : count_(count), get_(get) {}
  iterator begin() const { return {&get_, 0}; }
  iterator end() const { return {&get_, count_}; }
  std::size_t size() const { return count_; }
  bool empty() const { return count_ == 0; }
  // Throws std::out_of_range.
  auto operator[](std::size_t place) const {
    if (place >= count_)
      throw std::out_of_range("there is no such item");
    return get_(place);
  }

private:
  std::size_t count_;
  Get get_;
};

// An interned name, type or attribute of a session. Two of a session are compared by their numbers.
template <std::uint64_t (*Read)(mlir_work_session *, std::uint32_t, std::uint8_t *, std::size_t)> class Interned {
public:
  Interned(mlir_work_session *held, std::uint32_t number) : number_(number), held_(held) {}

  std::uint32_t number() const { return number_; }
  // Returns the text as a printed module has it. Throws std::bad_alloc.
  std::string text() const {
    std::uint8_t near[64];
    const std::uint64_t length = read(near, sizeof near);
    if (length <= sizeof near)
      return std::string(reinterpret_cast<const char *>(near), static_cast<std::size_t>(length));
    std::string all(static_cast<std::size_t>(length), '\0');
    read(reinterpret_cast<std::uint8_t *>(all.data()), all.size());
    return all;
  }
  friend bool operator==(const Interned &one, const Interned &other) { return one.number_ == other.number_; }
  friend bool operator!=(const Interned &one, const Interned &other) { return !(one == other); }
  friend bool operator==(const Interned &one, std::string_view text) { return one.text() == text; }
  friend bool operator!=(const Interned &one, std::string_view text) { return !(one == text); }

private:
  std::uint64_t read(std::uint8_t *into, std::size_t length) const {
    const std::uint64_t found = Read(held_, number_, into, length);
    if (found >= MLIR_WORK_NO_MEMORY)
      throw std::bad_alloc();
    return found;
  }

  std::uint32_t number_;

protected:
  mlir_work_session *held_;
};

using Name = Interned<mlir_work_name_text>;
using Type = Interned<mlir_work_type_text>;

// An integer attribute: its value below 2^w, in two parts of 64 bits, the number of its type, and the width w, which is
// 0 for index.
struct Integer : mlir_work_integer_value {
  bool is_zero() const { return low == 0 && high == 0; }
  bool is_minus_one() const {
    const std::uint32_t bits = width ? width : 64;
    const auto ones = [](std::uint32_t count) {
      return count >= 64 ? ~std::uint64_t{0} : (std::uint64_t{1} << count) - 1;
    };
    return low == ones(bits) && high == (bits > 64 ? ones(bits - 64) : 0);
  }
};

// An interned attribute.
class Attribute : public Interned<mlir_work_attribute_text> {
public:
  using Interned::Interned;
  // The integer that the attribute is, such as `5 : i32` or `true`.
  std::optional<Integer> integer() const {
    Integer found{};
    return mlir_work_integer(held_, number(), &found) ? std::optional(found) : std::nullopt;
  }
};

// An entry of the properties or the discardable attributes of an operation.
struct Entry {
  Name key;
  Attribute attribute;
};

class Uses;

// A result of an operation, or an argument of a block.
class Value {
public:
  Value(mlir_work_session *held, const mlir_work_value &numbers) : held_(held), numbers_(numbers) {}

  operator const mlir_work_value &() const { return numbers_; }
  bool is_result() const { return numbers_.region == MLIR_WORK_RESULT; }
  std::uint32_t place() const { return numbers_.place; }
  // The operation that has the result, or whose region has the block.
  Operation owner() const;
  // Throws std::out_of_range if the value is no longer in the module.
  Type type() const;
  // All uses, each once, in any order, as they are now: the uses may be changed while the range is read.
  Uses uses() const;
  bool is_used() const {
    mlir_work_use use;
    return mlir_work_first_use(held_, &numbers_, &use);
  }
  friend bool operator==(const Value &one, const Value &other) {
    const mlir_work_value &a = one.numbers_, &b = other.numbers_;
    return a.operation == b.operation && a.region == b.region && a.place == b.place;
  }
  friend bool operator!=(const Value &one, const Value &other) { return !(one == other); }

private:
  mlir_work_session *held_;
  mlir_work_value numbers_;
};

// An operation of a session, by its number. It converts to the number, so each call of Session accepts it. Handles are
// small and copied freely. A handle of an operation that was erased reads nothing: its ranges are empty. Don't move the
// session, or assign to it, while handles refer to it.
class Operation {
  template <bool (*At)(mlir_work_session *, std::uint32_t, std::size_t, mlir_work_entry *)>
  auto entries(std::size_t count) const {
    return Indexed(count, [held = held_, number = number_](std::size_t place) {
      mlir_work_entry entry{};
      At(held, number, place, &entry);
      return Entry{Name(held, entry.key), Attribute(held, entry.attribute)};
    });
  }

public:
  Operation(mlir_work_session *held, std::uint32_t number) : held_(held), number_(number) {}

  std::uint32_t number() const { return number_; }
  operator std::uint32_t() const { return number_; }
  bool exists() const { return mlir_work_has(held_, number_); }
  // Throws std::out_of_range if the operation was erased.
  Name name() const { return {held_, known(mlir_work_name_of(held_, number_))}; }

  auto operands() const {
    return Indexed(counts().operands, [held = held_, number = number_](std::size_t place) {
      mlir_work_value value{};
      mlir_work_operand(held, number, place, &value);
      return Value(held, value);
    });
  }
  auto results() const {
    return Indexed(counts().results, [held = held_, number = number_](std::size_t place) {
      return Value(held, result(number, static_cast<std::uint32_t>(place)));
    });
  }
  auto regions() const;
  auto properties() const { return entries<mlir_work_property_at>(counts().properties); }
  auto attributes() const { return entries<mlir_work_attribute_at>(counts().attributes); }
  // The property at a key, or else the discardable attribute. A key that is a text is looked up among all names of the
  // session; in a long loop pass a Name.
  std::optional<Attribute> attribute(std::string_view key) const {
    const std::uint64_t name =
        mlir_work_find_name(held_, reinterpret_cast<const std::uint8_t *>(key.data()), key.size());
    return name == MLIR_WORK_NONE ? std::nullopt : attribute(Name(held_, static_cast<std::uint32_t>(name)));
  }
  std::optional<Attribute> attribute(const Name &key) const {
    std::uint64_t found = mlir_work_property_by_key(held_, number_, key.number());
    if (found == MLIR_WORK_NONE)
      found = mlir_work_attribute_by_key(held_, number_, key.number());
    return found == MLIR_WORK_NONE ? std::nullopt : std::optional(Attribute(held_, static_cast<std::uint32_t>(found)));
  }

  std::optional<Operation> parent() const { return of(mlir_work_parent(held_, number_)); }
  std::optional<Operation> next() const { return of(mlir_work_next(held_, number_)); }
  std::optional<Operation> previous() const { return of(mlir_work_previous(held_, number_)); }
  // The number of its region in the parent.
  std::optional<std::uint32_t> region() const {
    const std::uint64_t found = mlir_work_region_of(held_, number_);
    return found == MLIR_WORK_NONE ? std::nullopt : std::optional(static_cast<std::uint32_t>(found));
  }
  // The operation and the operations inside it, in pre-order, as they are now. An operation that is erased during the
  // walk is left out.
  Operations walk() const;

private:
  friend class Session;
  friend class Value;
  friend class Region;
  friend class Block;

  mlir_work_count counts() const {
    mlir_work_count counts{};
    mlir_work_counts(held_, number_, &counts);
    return counts;
  }
  static std::uint32_t known(std::uint64_t number) {
    if (number == MLIR_WORK_NONE)
      throw std::out_of_range("it is no longer in the module");
    return static_cast<std::uint32_t>(number);
  }
  std::optional<Operation> of(std::uint64_t number) const {
    return number == MLIR_WORK_NONE ? std::nullopt
                                    : std::optional(Operation(held_, static_cast<std::uint32_t>(number)));
  }

  mlir_work_session *held_;
  std::uint32_t number_;
};

// A use: the operation that uses a value, and the number of its operand.
struct Use {
  Operation owner;
  std::uint32_t operand;
};

// The uses of a value. A few of them are kept without an allocation.
class Uses {
public:
  class iterator {
  public:
    using iterator_category = std::input_iterator_tag;
    using value_type = Use;
    using difference_type = std::ptrdiff_t;
    using pointer = void;
    using reference = Use;

    iterator(mlir_work_session *held, const mlir_work_use *at) : held_(held), at_(at) {}
    Use operator*() const { return {Operation(held_, at_->operation), at_->operand}; }
    iterator &operator++() { return ++at_, *this; }
    void operator++(int) { ++at_; }
    bool operator==(const iterator &other) const { return at_ == other.at_; }
    bool operator!=(const iterator &other) const { return at_ != other.at_; }

  private:
    mlir_work_session *held_;
    const mlir_work_use *at_;
  };

  Uses(mlir_work_session *held, const mlir_work_value &value)
      : held_(held), count_(mlir_work_uses(held, &value, near_, std::size(near_))) {
    if (count_ > std::size(near_)) {
      far_.resize(count_);
      mlir_work_uses(held, &value, far_.data(), count_);
    }
  }
  iterator begin() const { return {held_, first()}; }
  iterator end() const { return {held_, first() + count_}; }
  std::size_t size() const { return count_; }
  bool empty() const { return count_ == 0; }

private:
  const mlir_work_use *first() const { return far_.empty() ? near_ : far_.data(); }

  mlir_work_session *held_;
  mlir_work_use near_[8];
  std::size_t count_;
  std::vector<mlir_work_use> far_;
};

inline Operation Value::owner() const { return {held_, numbers_.operation}; }
inline Type Value::type() const { return {held_, Operation::known(mlir_work_value_type(held_, &numbers_))}; }
inline Uses Value::uses() const { return {held_, numbers_}; }

// A range of operations, as they are when it is made. An operation that is erased meanwhile is left out.
class Operations {
public:
  class iterator {
  public:
    using iterator_category = std::input_iterator_tag;
    using value_type = Operation;
    using difference_type = std::ptrdiff_t;
    using pointer = void;
    using reference = Operation;

    iterator(mlir_work_session *held, const std::uint32_t *at, const std::uint32_t *end)
        : held_(held), at_(at), end_(end) {
      skip();
    }
    Operation operator*() const { return {held_, *at_}; }
    iterator &operator++() { return ++at_, skip(), *this; }
    void operator++(int) { ++*this; }
    bool operator==(const iterator &other) const { return at_ == other.at_; }
    bool operator!=(const iterator &other) const { return at_ != other.at_; }

  private:
    void skip() {
      while (at_ != end_ && !mlir_work_has(held_, *at_))
        ++at_;
    }

    mlir_work_session *held_;
    const std::uint32_t *at_, *end_;
  };

  Operations(mlir_work_session *held, std::vector<std::uint32_t> numbers) : held_(held), numbers_(std::move(numbers)) {}
  iterator begin() const { return {held_, numbers_.data(), numbers_.data() + numbers_.size()}; }
  iterator end() const {
    const std::uint32_t *past = numbers_.data() + numbers_.size();
    return {held_, past, past};
  }

private:
  mlir_work_session *held_;
  std::vector<std::uint32_t> numbers_;
};

inline Operations Operation::walk() const {
  std::vector<std::uint32_t> numbers;
  for (std::uint64_t at = exists() ? number_ : MLIR_WORK_NONE; at != MLIR_WORK_NONE;
       at = mlir_work_walk_next(held_, static_cast<std::uint32_t>(at), number_))
    numbers.push_back(static_cast<std::uint32_t>(at));
  return Operations(held_, std::move(numbers));
}

// The block of a region.
class Block {
public:
  Block(mlir_work_session *held, std::uint32_t owner, std::uint32_t region)
      : held_(held), owner_(owner), region_(region) {}

  Operation owner() const { return {held_, owner_}; }
  Region region() const;
  auto arguments() const {
    const std::uint64_t count = mlir_work_argument_count(held_, owner_, region_);
    return Indexed(count == MLIR_WORK_NONE ? 0 : static_cast<std::size_t>(count),
                   [held = held_, owner = owner_, region = region_](std::size_t place) {
                     return Value(held, argument(owner, region, static_cast<std::uint32_t>(place)));
                   });
  }
  // Its operations, as they are now. An operation that is erased meanwhile is left out.
  Operations operations() const {
    std::vector<std::uint32_t> numbers;
    for (std::uint64_t at = mlir_work_first(held_, owner_, region_); at != MLIR_WORK_NONE;
         at = mlir_work_next(held_, static_cast<std::uint32_t>(at)))
      numbers.push_back(static_cast<std::uint32_t>(at));
    return Operations(held_, std::move(numbers));
  }
  std::optional<Operation> first() const { return owner().of(mlir_work_first(held_, owner_, region_)); }
  std::optional<Operation> last() const { return owner().of(mlir_work_last(held_, owner_, region_)); }

private:
  mlir_work_session *held_;
  std::uint32_t owner_, region_;
};

// A region of an operation. It has at most one block.
class Region {
public:
  Region(mlir_work_session *held, std::uint32_t owner, std::uint32_t place)
      : held_(held), owner_(owner), place_(place) {}

  Operation owner() const { return {held_, owner_}; }
  std::uint32_t place() const { return place_; }
  std::optional<Block> block() const {
    return mlir_work_argument_count(held_, owner_, place_) == MLIR_WORK_NONE
               ? std::nullopt
               : std::optional(Block(held_, owner_, place_));
  }

private:
  mlir_work_session *held_;
  std::uint32_t owner_, place_;
};

inline Region Block::region() const { return {held_, owner_, region_}; }
inline auto Operation::regions() const {
  return Indexed(counts().regions, [held = held_, number = number_](std::size_t place) {
    return Region(held, number, static_cast<std::uint32_t>(place));
  });
}

// The operations of a module with their names, operands, and results with their types and uses. A table is read by a
// call for 512 operations, so a walk over it is faster than one over handles.
class Table {
public:
  // Consecutive items of a record that are of one kind.
  template <class Part, Part mlir_work_item::*Kind> class Items {
  public:
    struct iterator {
      const mlir_work_item *at;
      const Part &operator*() const { return at->*Kind; }
      iterator &operator++() { return ++at, *this; }
      bool operator!=(const iterator &other) const { return at != other.at; }
    };
    Items(const mlir_work_item *first, std::size_t size) : first_(first), size_(size) {}
    iterator begin() const { return {first_}; }
    iterator end() const { return {first_ + size_}; }
    std::size_t size() const { return size_; }
    bool empty() const { return size_ == 0; }
    const Part &operator[](std::size_t place) const { return first_[place].*Kind; }

  private:
    const mlir_work_item *first_;
    std::size_t size_;
  };
  using Values = Items<mlir_work_value, &mlir_work_item::operand>;
  using ValueUses = Items<mlir_work_use, &mlir_work_item::use>;

  // A result: the number of its type, and its uses.
  struct ResultRow {
    std::uint32_t type;
    ValueUses uses;
  };
  // The results of an operation.
  class Results {
  public:
    struct iterator {
      const mlir_work_item *at;
      ResultRow operator*() const { return {at->result.type, ValueUses(at + 1, at->result.uses)}; }
      iterator &operator++() { return at += 1 + at->result.uses, *this; }
      bool operator!=(const iterator &other) const { return at != other.at; }
    };
    Results(const mlir_work_item *first, const mlir_work_item *last, std::size_t size)
        : first_(first), last_(last), size_(size) {}
    iterator begin() const { return {first_}; }
    iterator end() const { return {last_}; }
    std::size_t size() const { return size_; }

  private:
    const mlir_work_item *first_, *last_;
    std::size_t size_;
  };
  // An operation of the table.
  struct Row {
    std::uint32_t operation;
    std::uint32_t name; // the number of a Name
    Values operands;
    Results results;
  };

  explicit Table(mlir_work_session *held) : held_(held), items_(16 * page) {
    std::uint32_t none;
    const std::uint64_t count = mlir_work_operations(held, &none, 0);
    operations_.resize(count >= MLIR_WORK_NO_MEMORY ? 0 : static_cast<std::size_t>(count));
    if (!operations_.empty() &&
        mlir_work_operations(held, operations_.data(), operations_.size()) >= MLIR_WORK_NO_MEMORY)
      throw std::bad_alloc();
  }
  std::size_t size() const { return operations_.size(); }

  // Calls `visit` with each row, in pre-order. A row is valid during the call. Don't edit the module meanwhile.
  template <class Visit> void each(Visit visit) {
    for (std::size_t at = 0; at < operations_.size();) {
      const std::size_t count = std::min(page, operations_.size() - at);
      const std::size_t read = visit_page(operations_.data() + at, count, visit);
      if (read == 0)
        items_.resize(2 * items_.size());
      at += read;
    }
  }

private:
  static constexpr std::size_t page = 512;

  // Visits the operations whose records have space, and returns how many these are.
  template <class Visit> std::size_t visit_page(const std::uint32_t *operations, std::size_t count, Visit &visit) {
    const std::size_t written = mlir_work_records(held_, operations, count, items_.data(), items_.size());
    std::size_t read = 0;
    for (std::size_t at = 0, end; (end = mlir_work_record_end(items_.data(), written, at)) != 0; at = end) {
      const mlir_work_item *const first = &items_[at], *const last = items_.data() + end;
      const std::size_t operand_count = first->operation.operands;
      visit(Row{operations[read++],
                first->operation.name,
                {first + 1, operand_count},
                {first + 1 + operand_count, last, first->operation.results}});
    }
    return read;
  }

  mlir_work_session *held_;
  std::vector<std::uint32_t> operations_;
  std::vector<mlir_work_item> items_;
};

// A line or a module was refused. The session is unchanged.
class Refused : public std::runtime_error {
public:
  explicit Refused(const mlir_work_answer &answer) : std::runtime_error(said(answer)), answer_(answer) {}

  std::uint32_t refusal() const { return answer_.refusal; }
  const mlir_work_answer &answer() const { return answer_; }

private:
  static std::string said(const mlir_work_answer &answer) {
    if (answer.outcome == MLIR_WORK_NO_SESSION)
      return "no session";
    std::string text = "refused " + std::to_string(answer.refusal) + " " + mlir_work_refusal_word(answer.refusal);
    if (answer.outcome == MLIR_WORK_REFUSED_ON)
      text += " #" + std::to_string(answer.number);
    if (answer.outcome == MLIR_WORK_REFUSED_AT)
      text += " at " + std::to_string(answer.number);
    return text;
  }

  mlir_work_answer answer_;
};

// A module with its marks and its analyses. It can be moved, but not copied.
class Session {
public:
  // Parses a module; throws Refused if it is refused. `limit`: the limit of rewrites for a `canon` without a limit.
  // `opaque`: unknown types and attributes are kept as their texts.
  explicit Session(std::string_view module, std::uint32_t limit = 1000, bool opaque = false) {
    if (mlir_work_version() != MLIR_WORK_VERSION)
      throw std::runtime_error("the library has another version than mlir_work.h");
    std::random_device random;
    const std::uint64_t key = (std::uint64_t{random()} << 32) | random();
    mlir_work_answer answer;
    const auto open = opaque ? mlir_work_open_opaque : mlir_work_open;
    open(&held_, bytes(module), module.size(), key, limit, &answer);
    if (answer.outcome != MLIR_WORK_OK)
      throw Refused(answer);
  }
  Session(Session &&other) noexcept
      : held_(std::exchange(other.held_, mlir_work_session MLIR_WORK_CLOSED)), marks_(std::exchange(other.marks_, 0)) {}
  Session &operator=(Session &&other) noexcept {
    std::swap(held_, other.held_);
    std::swap(marks_, other.marks_);
    return *this;
  }
  Session(const Session &) = delete;
  Session &operator=(const Session &) = delete;
  ~Session() { mlir_work_close(&held_); }

  // Runs a line and returns the answer, even if it is a refusal.
  mlir_work_answer answer(std::string_view line) {
    mlir_work_answer answer;
    mlir_work_command(&held_, bytes(line), line.size(), &answer);
    if (answer.outcome == MLIR_WORK_OK)
      count(command_word(line));
    return answer;
  }

  // Defines the user patterns of a text, a line each, and returns how many they are; throws Refused. `check NAME` as a
  // command checks one.
  std::size_t define(std::string_view patterns) {
    mlir_work_answer answer;
    std::size_t at = 0;
    mlir_work_patterns(&held_, bytes(patterns), patterns.size(), &at, &answer);
    return static_cast<std::size_t>(accepted(answer).number);
  }

  // Returns how many marks are open.
  std::size_t marks() const { return marks_; }

  // Runs a line and returns its outcome; throws Refused.
  mlir_work_answer command(std::string_view line) { return accepted(answer(line)); }

  // Runs a line and returns its output, such as the text of a module, or rows; throws Refused.
  std::string text(std::string_view line) {
    std::string shown(static_cast<std::size_t>(command(line).shown), '\0');
    if (!shown.empty())
      mlir_work_read(&held_, 0, reinterpret_cast<std::uint8_t *>(shown.data()), shown.size());
    return shown;
  }

  // Returns the rows of a report, by the word of its kind; throws Refused.
  std::vector<std::string> report(std::string_view kind) {
    const std::string shown = text("report " + std::string(kind));
    std::vector<std::string> rows;
    for (std::size_t from = 0, end; (end = shown.find('\n', from)) != std::string::npos; from = end + 1)
      rows.push_back(shown.substr(from, end - from));
    return rows;
  }

  // Returns the rows of a report, split into cells; throws Refused.
  std::vector<std::vector<std::string>> rows(std::string_view kind) {
    std::string shown = text("report " + std::string(kind));
    mlir_work_tabs(reinterpret_cast<std::uint8_t *>(shown.data()), shown.size());
    std::vector<std::vector<std::string>> found;
    std::vector<std::string> row;
    for (std::size_t from = 0, end; (end = shown.find_first_of("\t\n", from)) != std::string::npos; from = end + 1) {
      row.push_back(shown.substr(from, end - from));
      if (shown[end] == '\n')
        found.push_back(std::exchange(row, {}));
    }
    return found;
  }

  // Returns the rows of a report as numbers; throws Refused.
  std::vector<std::vector<mlir_work_cell>> rows(mlir_work_kind kind) {
    std::vector<mlir_work_cell> cells(64);
    mlir_work_answer answer;
    mlir_work_report(&held_, kind, cells.data(), cells.size(), &answer);
    const auto count = static_cast<std::size_t>(accepted(answer).number);
    const bool is_whole = count <= cells.size();
    cells.resize(count);
    if (!is_whole)
      mlir_work_report(&held_, kind, cells.data(), count, &answer);
    accepted(answer);
    std::vector<std::vector<mlir_work_cell>> found;
    std::vector<mlir_work_cell> row;
    for (const mlir_work_cell &cell : cells) {
      row.push_back(cell);
      if (cell.left == 0)
        found.push_back(std::exchange(row, {}));
    }
    return found;
  }

  // Edits by numbers, or by handles. They throw Refused.
  void set_operand(std::uint32_t operation, std::uint32_t operand, const mlir_work_value &value) {
    mlir_work_answer answer;
    mlir_work_set_operand(&held_, operation, operand, &value, &answer);
    accepted(answer);
  }
  void replace(const mlir_work_value &old_value, const mlir_work_value &new_value) {
    mlir_work_answer answer;
    mlir_work_replace(&held_, &old_value, &new_value, &answer);
    accepted(answer);
  }
  void erase(std::uint32_t operation) {
    mlir_work_answer answer;
    mlir_work_erase(&held_, operation, &answer);
    accepted(answer);
  }
  void move(std::uint32_t operation, const Spot &spot) {
    mlir_work_answer answer;
    mlir_work_move(&held_, operation, &spot, &answer);
    accepted(answer);
  }

  // The commands on marks. They throw Refused. A `Mark` calls them by itself.
  void begin() { accepted(marked(mlir_work_begin, "begin")); }
  void commit() { accepted(marked(mlir_work_commit, "commit")); }
  void rollback() { accepted(marked(mlir_work_rollback, "rollback")); }

  // Inserts an operation without regions and returns it. The entries may be in any order. An inherent attribute is put
  // among the properties. A key that is given twice is refused.
  Operation insert(const Spot &spot, const Name &name, const std::vector<mlir_work_value> &operands,
                   const std::vector<Type> &results, const std::vector<Entry> &properties = {},
                   const std::vector<Entry> &attributes = {}) {
    std::vector<std::uint32_t> types;
    for (const Type &type : results)
      types.push_back(type.number());
    std::vector<mlir_work_new_entry> entries;
    for (const Entry &entry : properties)
      entries.push_back({entry.key.number(), entry.attribute.number(), true});
    for (const Entry &entry : attributes)
      entries.push_back({entry.key.number(), entry.attribute.number(), false});
    const mlir_work_new made{spot, name.number()};
    const mlir_work_value no_value{};
    const std::uint32_t no_type = 0;
    const mlir_work_new_entry no_entry{};
    mlir_work_answer answer;
    mlir_work_insert(&held_, &made, operands.empty() ? &no_value : operands.data(), operands.size(),
                     types.empty() ? &no_type : types.data(), types.size(),
                     entries.empty() ? &no_entry : entries.data(), entries.size(), &answer);
    return operation(static_cast<std::uint32_t>(accepted(answer).number));
  }
  void set_attribute(std::uint32_t operation, const Name &key, const Attribute &attribute) {
    mlir_work_answer answer;
    mlir_work_set_attribute(&held_, operation, key.number(), attribute.number(), &answer);
    accepted(answer);
  }
  void drop_attribute(std::uint32_t operation, const Name &key) {
    mlir_work_answer answer;
    mlir_work_drop_attribute(&held_, operation, key.number(), &answer);
    accepted(answer);
  }

  // Interns a name, a type or an attribute, if it is new. They throw Refused. Don't call them in an inner loop.
  Name intern_name(std::string_view text) { return {&held_, interned(mlir_work_name, text)}; }
  Type intern_type(std::string_view text) { return {&held_, interned(mlir_work_type, text)}; }
  Attribute intern_attribute(std::string_view text) { return {&held_, interned(mlir_work_attribute, text)}; }

  // Handles. An operation or a value need not exist.
  Operation operation(std::uint32_t number) { return {&held_, number}; }
  Value value(const mlir_work_value &numbers) { return {&held_, numbers}; }
  // All operations in pre-order, the root first, as they are now. Throws std::bad_alloc.
  Operations walk() {
    std::vector<std::uint32_t> numbers(static_cast<std::size_t>(all(nullptr, 0)));
    all(numbers.data(), numbers.size());
    return {&held_, std::move(numbers)};
  }
  // All operations with what they have, read by a few calls. Throws std::bad_alloc.
  Table table() { return Table(&held_); }
  // The name with this text, if the session has it. Compare it with the names of operations, or pass it as a key.
  std::optional<Name> name(std::string_view text) {
    const std::uint64_t found = mlir_work_find_name(&held_, bytes(text), text.size());
    return found == MLIR_WORK_NONE ? std::nullopt : std::optional(Name(&held_, static_cast<std::uint32_t>(found)));
  }

  // Queries by numbers, or by handles.
  bool has(std::uint32_t operation) { return mlir_work_has(&held_, operation); }
  std::optional<Operation> root() { return found(mlir_work_root(&held_)); }
  std::optional<Operation> parent(std::uint32_t operation) { return found(mlir_work_parent(&held_, operation)); }
  std::optional<Operation> next(std::uint32_t operation) { return found(mlir_work_next(&held_, operation)); }
  std::optional<Operation> previous(std::uint32_t operation) { return found(mlir_work_previous(&held_, operation)); }
  std::optional<Operation> first(std::uint32_t operation, std::uint32_t region = 0) {
    return found(mlir_work_first(&held_, operation, region));
  }
  std::optional<Operation> last(std::uint32_t operation, std::uint32_t region = 0) {
    return found(mlir_work_last(&held_, operation, region));
  }
  std::optional<Value> operand(std::uint32_t operation, std::size_t place) {
    mlir_work_value value;
    return mlir_work_operand(&held_, operation, place, &value) ? std::optional(Value(&held_, value)) : std::nullopt;
  }
  std::optional<Use> first_use(const mlir_work_value &value) {
    mlir_work_use use;
    return mlir_work_first_use(&held_, &value, &use) ? std::optional(Use{operation(use.operation), use.operand})
                                                     : std::nullopt;
  }

private:
  static mlir_work_answer accepted(const mlir_work_answer &told) {
    if (told.outcome >= MLIR_WORK_REFUSED && told.outcome <= MLIR_WORK_NO_SESSION)
      throw Refused(told);
    return told;
  }
  template <class Call> std::uint32_t interned(Call call, std::string_view text) {
    mlir_work_answer answer;
    call(&held_, bytes(text), text.size(), &answer);
    return static_cast<std::uint32_t>(accepted(answer).number);
  }
  std::optional<Operation> found(std::uint64_t number) {
    return number == MLIR_WORK_NONE ? std::nullopt : std::optional(operation(static_cast<std::uint32_t>(number)));
  }
  std::uint64_t all(std::uint32_t *numbers, std::size_t capacity) {
    std::uint32_t none;
    const std::uint64_t count = mlir_work_operations(&held_, numbers ? numbers : &none, capacity);
    if (count == MLIR_WORK_NO_MEMORY)
      throw std::bad_alloc();
    return count == MLIR_WORK_NONE ? 0 : count;
  }
  static const std::uint8_t *bytes(std::string_view text) {
    return reinterpret_cast<const std::uint8_t *>(text.data() ? text.data() : "");
  }
  // Removes the first word of a text, with the blanks around it, and returns it.
  static std::string_view take_word(std::string_view &text) {
    text.remove_prefix(std::min(text.find_first_not_of(" \t\r"), text.size()));
    const std::string_view word = text.substr(0, text.find_first_of(" \t\r\n"));
    text.remove_prefix(word.size());
    return word;
  }
  // Returns the command word of an accepted line, without a leading `expect REFUSAL`.
  static std::string_view command_word(std::string_view line) {
    const std::string_view word = take_word(line);
    if (word != "expect")
      return word;
    take_word(line);
    return take_word(line);
  }
  friend class Mark;
  // Calls a command on marks and returns the answer, even if it is a refusal.
  mlir_work_answer marked(void (*call)(mlir_work_session *, mlir_work_answer *), std::string_view word) {
    mlir_work_answer answer;
    call(&held_, &answer);
    if (answer.outcome == MLIR_WORK_OK)
      count(word);
    return answer;
  }
  // Updates the number of open marks after a command.
  void count(std::string_view word) {
    if (word == "begin")
      ++marks_;
    else if (word == "commit" || word == "rollback")
      --marks_;
  }

  mlir_work_session held_ = MLIR_WORK_CLOSED;
  std::size_t marks_ = 0;
};

// A mark of the module. The destructor rolls the module back to the mark, unless `keep` was called. It also drops all
// marks that were made later and are still open. If the mark was already committed or rolled back, the destructor does
// nothing. Don't move the session, or assign to it, while a Mark refers to it.
class Mark {
public:
  // Throws Refused if 16 marks are open.
  explicit Mark(Session &session) : session_(&session) {
    session.begin();
    depth_ = session.marks();
  }
  Mark(const Mark &) = delete;
  Mark &operator=(const Mark &) = delete;
  ~Mark() {
    while (session_ && session_->marks() >= depth_ &&
           session_->marked(mlir_work_rollback, "rollback").outcome == MLIR_WORK_OK) {
    }
  }

  // Commits the mark and all later marks that are still open. Throws std::logic_error if the mark was already committed
  // or rolled back.
  void keep() {
    if (!session_)
      return;
    if (session_->marks() < depth_)
      throw std::logic_error("the mark was dropped before it was kept");
    while (session_->marks() >= depth_)
      session_->commit();
    session_ = nullptr;
  }

private:
  Session *session_;
  std::size_t depth_ = 0;
};

} // namespace workbench
