// What a `Mark` of mlir_work.hpp makes of the module and of the marks that are open, whatever is done within it. It
// prints nothing and ends with 0 if all is as mlir_work.hpp says.
#include "mlir_work.hpp"

#include <cstdio>
#include <functional>
#include <memory>

using workbench::Mark;
using workbench::Refused;
using workbench::Session;

static const char module[] =
    "%0 = \"test.a\"() : () -> i32\n%1 = \"test.b\"() : () -> i32\n\"test.c\"(%0) : (i32) -> ()\n";

#define WANT(what) \
  do { \
    if (!(what)) { \
      std::fprintf(stderr, "line %d: %s\n", __LINE__, #what); \
      return false; \
    } \
  } while (0)

// Whether so many marks are open, by the library: that many are rolled back, and no more.
static bool has_marks(Session &session, std::size_t marks) {
  WANT(session.marks() == marks);
  for (; marks; --marks)
    WANT(session.answer("rollback").outcome == MLIR_WORK_OK);
  WANT(session.answer("rollback").refusal == MLIR_WORK_NO_MARK && session.marks() == 0);
  return true;
}

// Whether work within a mark that isn't kept leaves the module as it was, with the two marks around it.
static bool goes_back(const std::function<void(Session &)> &work) {
  Session session(module);
  const std::string before = session.text("print");
  session.command("begin");
  session.command("\t begin\r\n");
  {
    Mark mark(session);
    work(session);
  }
  WANT(session.text("print") == before);
  return has_marks(session, 2);
}

// An edit within a mark that isn't kept is taken back.
static bool edits_go_back() {
  return goes_back([](Session &session) { session.erase(3); });
}

// Marks that were made within, and are open, are rolled back with the mark.
static bool marks_within_go_back() {
  return goes_back([](Session &session) {
    session.command("erase #3");
    session.command("begin");
    session.command("expect 22  begin");
    session.command("erase #2");
  });
}

// Marks that were made within, and committed or rolled back there, change nothing of that.
static bool ended_marks_within() {
  return goes_back([](Session &session) {
    session.command("begin");
    session.command("erase #3");
    session.command("commit");
    session.command("begin");
    session.command("erase #2");
    session.command("expect NoMark rollback");
    session.command("// begin");
    session.answer("begin of what is refused");
  });
}

// A mark that was rolled back within, and made again, is rolled back.
static bool made_again_within() {
  return goes_back([](Session &session) {
    session.command("rollback");
    session.command("begin");
    session.erase(3);
  });
}

// A mark within a mark goes back to its own module, and not further.
static bool mark_in_a_mark() {
  return goes_back([](Session &session) {
    session.erase(3);
    const std::string between = session.text("print");
    {
      Mark inner(session);
      session.erase(2);
    }
    if (session.text("print") != between)
      throw std::runtime_error("the inner mark went too far");
    Mark kept(session);
    session.erase(1);
    kept.keep();
  });
}

// An exception within a mark goes on, and the module is rolled back, with marks that were made within.
static bool exceptions_go_back() {
  Session session(module);
  const std::string before = session.text("print");
  int thrown = 0;
  try {
    Mark mark(session);
    session.command("erase #3");
    session.command("begin");
    session.command("erase #2");
    throw 7;
  } catch (int number) {
    thrown = number;
  }
  WANT(thrown == 7 && session.text("print") == before);
  try {
    Mark mark(session);
    session.command("erase #3");
    session.command("begin");
    session.command("erase #3");
  } catch (const Refused &refused) {
    thrown = static_cast<int>(refused.refusal());
  }
  WANT(thrown == MLIR_WORK_NO_SUCH_OP && session.text("print") == before);
  return has_marks(session, 0);
}

// `keep` commits the mark with those that were made within it; to keep it again does nothing.
static bool kept_with_marks_within() {
  Session session(module);
  session.command("begin");
  {
    Mark mark(session);
    session.command("erase #3");
    session.command("begin");
    session.command("erase #2");
    mark.keep();
    mark.keep();
    WANT(session.marks() == 1);
  }
  WANT(!session.has(3) && !session.has(2));
  return has_marks(session, 1);
}

// If the mark was committed within, to keep it throws; what was done stays, and the marks around it do too.
static bool dropped_within() {
  Session session(module);
  session.command("begin");
  session.command("begin");
  bool is_thrown = false;
  {
    Mark mark(session);
    session.erase(3);
    session.command("commit");
    try {
      mark.keep();
    } catch (const std::logic_error &) {
      is_thrown = true;
    }
  }
  WANT(is_thrown && !session.has(3) && session.marks() == 2);
  {
    Mark mark(session);
    session.command("commit");
    session.command("commit");
  }
  WANT(!session.has(3));
  return has_marks(session, 1);
}

// Marks that end in another order: the outer one takes the inner one with it.
static bool ends_in_another_order() {
  Session session(module);
  const std::string before = session.text("print");
  auto outer = std::make_unique<Mark>(session);
  session.erase(3);
  auto inner = std::make_unique<Mark>(session);
  session.erase(2);
  outer.reset();
  WANT(session.text("print") == before);
  inner.reset();
  WANT(session.text("print") == before);
  return has_marks(session, 0);
}

// The count of marks goes with the session that is moved; a session that is closed has none.
static bool moved() {
  Session session(module);
  session.command("begin");
  Session other(std::move(session));
  WANT(other.marks() == 1);
  other.command("begin");
  session = Session(module);
  WANT(session.marks() == 0);
  std::swap(session, other);
  return has_marks(session, 2) && has_marks(other, 0);
}

// Sixteen marks may be open; one more is refused, and nothing is rolled back for it.
static bool too_many() {
  Session session(module);
  for (int i = 0; i < 15; i++)
    session.command("begin");
  std::uint32_t refusal = 0;
  Mark last(session);
  session.erase(3);
  try {
    Mark more(session);
  } catch (const Refused &refused) {
    refusal = refused.refusal();
  }
  WANT(refusal == MLIR_WORK_TOO_MANY_MARKS && !session.has(3));
  last.keep();
  return has_marks(session, 15);
}

int main() {
  const bool is_right = edits_go_back() && marks_within_go_back() && ended_marks_within() && made_again_within() &&
                        mark_in_a_mark() && exceptions_go_back() && kept_with_marks_within() && dropped_within() &&
                        ends_in_another_order() && moved() && too_many();
  return is_right ? 0 : 1;
}
