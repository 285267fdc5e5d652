// What is made in C++ of the shapes of tests/embed/idl_test.py: values that are none of their types, and unions.
#include <cstdio>

#include "shapes_idl.hpp"

namespace lr = lemonrudder;

static int failures = 0;

#define WANT(WHAT) \
  if (!(WHAT)) std::printf("line %d: %s\n", __LINE__, #WHAT), failures++

// What comes of reading octets.
template <class T>
static lr::Error read(const std::vector<std::uint8_t>& octets) {
  lr::Reader in{lr::Octets(octets)};
  T value;
  return T::_read(in, value).error();
}

// Whether a call failed by an error, and says why.
template <class Outcome>
static bool failed(const Outcome& outcome, std::int64_t error, const std::string& why) {
  if (outcome.why() != why) std::printf("it says: %s\n", outcome.why().c_str());
  return outcome.error() == error && outcome.why() == why;
}

// Nothing listens at this port: an answer that comes at once says that nothing was to be sent.
static void arguments() {
  auto caller = *lr::idl::Caller::open("127.0.0.1", 1);
  const Shapes::Desk desk(caller, "desk");
  Shapes::Held held;
  held.some = {"a", "b", "c", "d"};
  WANT(failed(desk.keep(held), LR_E_RANGE, "keep: what: some: a sequence of 4, and the bound is 3"));
  held.some = {"a", "abcde"};
  WANT(failed(desk.keep(held), LR_E_RANGE, "keep: what: some: [1]: a string of 5, and the bound is 4"));
  held.some = {"abcd"};
  held.its_colour = static_cast<Shapes::Colour>(3);
  WANT(failed(desk.keep(held), LR_E_RANGE, "keep: what: its_colour: 3 is no name of the enum"));
  WANT(failed(desk.tell(std::string("a\0b", 3)), LR_E_TEXT, "tell: what: a NUL in a string"));
  Shapes::Mark mark;
  mark.text(std::string("a\0b", 3));
  WANT(failed(desk.draw(mark), LR_E_TEXT, "draw: what: text: a NUL in a string"));
  caller.patience(std::chrono::milliseconds(50));
  const auto told = desk.tell("a");
  WANT(told.system() != nullptr && told.system()->id == "IDL:omg.org/CORBA/TRANSIENT:1.0");
  WANT(told.system() != nullptr && told.system()->completed == lr::Completed::no);
}

// A server that takes a call, and is gone: it may have acted.
static void left_alone() {
  const int listener = socket(AF_INET, SOCK_STREAM, 0);
  sockaddr_in name{};
  socklen_t size = sizeof name;
  name.sin_family = AF_INET;
  name.sin_addr.s_addr = htonl(INADDR_LOOPBACK);
  WANT(bind(listener, reinterpret_cast<sockaddr*>(&name), size) == 0 && listen(listener, 1) == 0);
  WANT(getsockname(listener, reinterpret_cast<sockaddr*>(&name), &size) == 0);
  std::thread server([listener] {
    char room[1024];
    const int fd = accept(listener, nullptr, nullptr);
    WANT(recv(fd, room, sizeof room, 0) > 0);
    close(listener);
    close(fd);
  });
  auto caller = *lr::idl::Caller::open("127.0.0.1", ntohs(name.sin_port));
  caller.patience(std::chrono::milliseconds(500));
  const auto size_of = Shapes::Desk(caller, "desk").size();
  server.join();
  WANT(size_of.system() != nullptr && size_of.system()->id == "IDL:omg.org/CORBA/COMM_FAILURE:1.0");
  WANT(size_of.system() != nullptr && size_of.system()->completed == lr::Completed::maybe);
}

static void octets() {
  WANT(read<Shapes::Mark>({0, 0, 0, 0, 0, 1, 0, 2}) == LR_OK);
  WANT(read<Shapes::Mark>({0, 0, 0, 0, 0, 1}) == LR_E_SHORT);
  WANT(read<Shapes::Mark>({0, 0, 0, 2}) == LR_OK);
  WANT(read<Shapes::Mark>({0, 0, 0, 3}) == LR_E_VALUE);
  WANT(read<Shapes::Held>({0, 0, 0, 4, 0, 0, 0, 1, 0, 0, 0, 0}) == LR_E_VALUE);
  WANT(read<Shapes::Held>({0, 0, 0, 1, 0, 0, 0, 6, 'a', 'b', 'c', 'd', 'e', 0}) == LR_E_VALUE);
  WANT(read<Shapes::Held>({255, 255, 255, 255}) == LR_E_SHORT);
}

static void unions() {
  Shapes::Mark mark;
  WANT(mark._d() == Shapes::Colour::red && mark.at() != nullptr && mark.text() == nullptr);
  mark.text("t");
  WANT(mark._d() == Shapes::Colour::green && *mark.text() == "t" && mark.at() == nullptr);
  mark._d(Shapes::Colour::None_);
  WANT(mark.text() == nullptr && mark.at() == nullptr);
  Shapes::Any_ any;
  any.from(1.5);
  WANT(!any._d() && *any.from() == 1.5 && any.id() == nullptr);
}

int main() {
  static_assert(Shapes::FEW == 3);
  arguments();
  left_alone();
  octets();
  unions();
  return failures;
}
