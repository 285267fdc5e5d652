// The classes of lemonrudder.hpp: what they own and move, their errors, and a client and a server that talk in memory.
#include <array>
#include <cstdio>
#include <cstdlib>
#include <lemonrudder.hpp>
#include <new>
#include <string>
#include <type_traits>
#include <utility>
#include <vector>
#if __has_include(<span>) && __cplusplus > 201703L
#include <span>
#endif

namespace lr = lemonrudder;
using namespace lr::literals;

#ifdef __cpp_exceptions
/* Whether `new` finds no memory. */
static bool is_without_memory = false;

[[gnu::noinline]] void* operator new(std::size_t size) {
  void* const at = is_without_memory ? nullptr : std::malloc(size);
  if (at == nullptr) throw std::bad_alloc();
  return at;
}
[[gnu::noinline]] void operator delete(void* at) noexcept { std::free(at); }
[[gnu::noinline]] void operator delete(void* at, std::size_t) noexcept { std::free(at); }
#endif

namespace {

constexpr lr::Limits limits{4096, 2};
constexpr std::uint64_t now = 1000;
constexpr std::uint64_t later = 2000;
constexpr std::uint8_t one_long[] = {LR_TYPE_LONG};

long passed = 0;
long failed = 0;

void check(bool is_right, const char* text, int line) {
  (is_right ? passed : failed)++;
  if (!is_right) std::printf("line %d: not so: %s\n", line, text);
}

#define CHECK(what) check(static_cast<bool>(what), #what, __LINE__)

static_assert(!std::is_copy_constructible_v<lr::Server> && !std::is_copy_assignable_v<lr::Server>);
static_assert(std::is_nothrow_move_constructible_v<lr::Server> && std::is_nothrow_move_assignable_v<lr::Server>);
static_assert(!std::is_convertible_v<lr::Result<bool>, bool> && !std::is_constructible_v<bool, lr::Result<bool>>);

using Vector = std::vector<std::uint8_t>;
using Four = std::uint8_t[4];

/* What a reader may be made of: what is there as long as it may be, and nothing that is gone before it reads. */
template <class Octets>
constexpr bool is_read = std::is_constructible_v<lr::Reader, Octets, lr::Order>;
static_assert(!is_read<Vector> && !is_read<const Vector> && !is_read<std::vector<char>>);
static_assert(!is_read<std::string> && !is_read<const std::string>);
static_assert(!is_read<std::array<std::uint8_t, 4>> && !is_read<const std::array<const char, 4>>);
static_assert(!is_read<Four> && !is_read<const Four> && !is_read<const char[4]>);
static_assert(is_read<Vector&> && is_read<const Vector&> && is_read<std::vector<std::byte>&>);
static_assert(is_read<std::string&> && is_read<const std::string&> && is_read<std::array<std::uint8_t, 4>&>);
static_assert(is_read<Four&> && is_read<const Four&> && is_read<const char (&)[4]>);
static_assert(is_read<const char*> && is_read<std::string_view> && is_read<lr::Octets> && is_read<const lr::Octets>);
static_assert(std::is_copy_constructible_v<lr::Reader> && std::is_move_constructible_v<lr::Reader>);

/* What a writer may be made of: the same, where it may be written. */
template <class Room>
constexpr bool is_written = std::is_constructible_v<lr::Writer, Room>;
static_assert(!is_written<Vector> && !is_written<std::string> && !is_written<std::array<std::uint8_t, 4>>);
static_assert(!is_written<const Vector&> && !is_written<const Four&> && !is_written<Four> && !is_written<lr::Octets>);
static_assert(is_written<Vector&> && is_written<std::string&> && is_written<std::vector<std::byte>&>);
static_assert(is_written<Four&> && is_written<char (&)[4]> && is_written<std::array<char, 4>&>);
static_assert(is_written<lr::Room> && is_written<lr::Room&> && is_written<const lr::Room&>);
static_assert(!std::is_copy_constructible_v<lr::GrowingWriter> && std::is_nothrow_move_assignable_v<lr::GrowingWriter>);

/* What octets are made of. */
template <class Range>
constexpr bool is_lent = std::is_convertible_v<Range, lr::Octets>;
static_assert(is_lent<Vector> && is_lent<std::string> && is_lent<std::array<char, 4>> && is_lent<lr::Room>);
static_assert(is_lent<std::vector<signed char>> && is_lent<const std::byte (&)[4]> && is_lent<const char*>);
static_assert(!is_lent<std::vector<int>> && !is_lent<std::vector<bool>> && !is_lent<std::wstring> && !is_lent<int>);
static_assert(!is_lent<const int (&)[4]> && !is_lent<const int*> && !is_lent<const std::uint8_t*>);
#ifdef __cpp_char8_t
static_assert(is_lent<std::u8string> && is_lent<std::u8string_view> && !is_lent<const char8_t (&)[4]>);
#endif
#ifdef __cpp_lib_span
static_assert(is_read<std::span<const std::byte>> && is_read<std::span<std::uint8_t>> && !is_read<std::span<int>>);
static_assert(is_written<std::span<std::byte>> && is_written<const std::span<char>&>);
static_assert(!is_written<std::span<const std::byte>> && is_lent<std::span<const std::uint8_t, 4>>);
#endif

/* Names of one kind are not taken for names of another, nor numbers for names. */
template <class... Given>
constexpr bool is_system = std::is_invocable_v<decltype(&lr::Server::system), lr::Server&, std::uint64_t, Given...>;
static_assert(is_system<lr::SystemException, std::uint32_t, lr::Completed>);
static_assert(!is_system<lr::SystemException, lr::Completed, std::uint32_t>);
static_assert(!is_system<lr::ReplyStatus, std::uint32_t, lr::Completed>);
static_assert(!is_system<std::uint32_t, std::uint32_t, std::uint32_t>);

/* A server of the object `c` with add(long) -> long, which raises Wrong { string }, and of `raw`. */
lr::Result<lr::Server> open_server() {
  auto catalogue = lr::Catalogue::open();
  if (!catalogue) return catalogue.error();
  CHECK(catalogue->object("c"));
  CHECK(catalogue->exception("IDL:C/Wrong:1.0", {LR_TYPE_STRING}));
  CHECK(catalogue->operation("c", "add", {LR_TYPE_LONG}, {LR_TYPE_LONG}));
  CHECK(catalogue->operation("c", "none", {}, {}));
  CHECK(catalogue->raw_operation("c", "any"));
  CHECK(catalogue->repository_id("c", "IDL:C:1.0"));
  CHECK(catalogue->raw_object("raw"));
  CHECK(catalogue->object("c").error() == LR_E_TAKEN);
  CHECK(catalogue->operation("c", "bad", {LR_TYPE_SEQUENCE}, {}).error() == LR_E_TYPES);
  auto other = lr::Catalogue::open();
  lr::Settings settings;
  settings.partials = 0;
  CHECK(other && lr::Server::open(*other, {1, 2}, settings).error() == LR_E_RANGE);
  settings = {};
  settings.message = 4096;
  settings.capacity = 100;
  settings.parked_of_one = 2;
  auto server = lr::Server::open(*catalogue, {1, 2}, settings);
  CHECK(server && !catalogue->is_open());
  CHECK(server && server->set(LR_SET_DUE, 1 << 16) && server->set(LR_SET_CUTS + 1, 1).error() == LR_E_RANGE);
  return server;
}

/* All that is due on one side: of a client, or of a connection of a server. */
template <class Side, class... Connection>
std::vector<std::uint8_t> due_of(Side& side, Connection... connection) {
  std::vector<std::uint8_t> all;
  std::array<std::uint8_t, 7> room;
  for (auto count = side.output(connection..., room); count && *count > 0; count = side.output(connection..., room))
    all.insert(all.end(), room.begin(), room.begin() + static_cast<std::ptrdiff_t>(*count));
  return all;
}

void objects_move() {
  auto made = lr::Assembler::open(limits);
  CHECK(made);
  lr::Assembler one = *std::move(made);
  lr::Assembler other = std::move(one);
  CHECK(!one.is_open() && other.is_open());
  CHECK(one.feed("G").error() == LR_E_EMPTY);
  CHECK(other.feed("G"));
  one = std::move(other);
  CHECK(one.is_open() && !other.is_open());
  lr::Assembler& self = one;
  one = std::move(self);
  CHECK(one.is_open());
  one.close();
  one.close();
  CHECK(!one.is_open() && one.fault().error() == LR_E_EMPTY);
}

/* A Reply of 1.1 of 24 octets and an empty Fragment: where cuts are to be aligned it is refused. */
void messages_are_cut_anywhere() {
  const lr::Octets cut(
      "GIOP\1\1\2\1\0\0\0\14\0\0\0\0\0\0\0\7\0\0\0\0"
      "GIOP\1\1\0\7\0\0\0\0",
      36);
  auto refused = lr::Assembler::open(limits);
  CHECK(refused && refused->feed(cut).error() == LR_E_STREAM);
  auto taken = lr::Assembler::open({4096, 1, lr::Cuts::anywhere});
  CHECK(taken && taken->feed(cut).value_or(0) == cut.size());
  auto message = taken->message();
  CHECK(message && *message && (*message)->request_id == 7);
  lr::ClientSettings settings;
  settings.cuts = lr::Cuts::anywhere;
  CHECK(lr::Client::open("A", settings));
}

/* A client calls, its connection is lost, and it is answered on the next. */
void a_call_acts_once() {
  auto server = open_server();
  auto client = lr::Client::open("A");
  if (!server || !client) return CHECK(false);
  CHECK(client->call(now, {"c", "add", later, one_long, lr::Octets("\5\0\0\0", 4), lr::Order::little}).ok());
  CHECK(!client->is_connected());
  int asked_times = 0;
  for (std::uint64_t connection = 1; connection <= 2; connection++) {
    CHECK(client->connected(now));
    CHECK(server->connect(connection));
    const auto up = due_of(*client);
    CHECK(server->feed(connection, now, up));
    const auto asked = server->asked();
    CHECK(asked);
    if (asked && *asked) {
      asked_times++;
      CHECK((*asked)->connection == connection && (*asked)->has_client == 1);
      CHECK((*asked)->wished() == lr::Wish::full && (*asked)->byte_order() == lr::Order::big);
      const auto id = server->part((*asked)->ticket, lr::Part::client);
      CHECK(id && lr::Octets(*id).text() == "A");
      const auto body = server->part((*asked)->ticket, lr::Part::body);
      CHECK(body && *body == (std::vector<std::uint8_t>{0, 0, 0, 5}));
      CHECK(server->answer((*asked)->ticket, lr::Order::big, "").error() == LR_E_OUTCOME);
      CHECK(server->answer((*asked)->ticket, lr::Order::big, lr::Octets("\0\0\0\6", 4)));
    }
    const auto down = due_of(*server, connection);
    if (connection == 2) CHECK(client->feed(down));
    CHECK(client->lost());
    CHECK(server->lost(connection) && server->is_closed(connection));
  }
  CHECK(asked_times == 1);
  const auto completion = client->completed();
  CHECK(completion && *completion && (*completion)->call == 1 && (*completion)->ended() == lr::Ended::returned);
  const auto body = client->body();
  CHECK(body && *body == (std::vector<std::uint8_t>{0, 0, 0, 6}));
  const auto none = client->completed();
  CHECK(none && !*none);
  CHECK((*completion)->byte_order() == lr::Order::big);
  const auto is_cancelled = client->cancel(1);
  CHECK(is_cancelled.ok() && !*is_cancelled);
}

/* A call of before is forwarded, and asked for by another key. */
void a_call_goes_on() {
  auto client = lr::Client::open("A");
  if (!client) return CHECK(false);
  const lr::Call call{"c", "add", later, one_long, lr::Octets("\0\0\0\5", 4)};
  std::array<std::uint8_t, 9> room{};
  CHECK(client->keep_transient(true) && client->keep_forward(true));
  CHECK(client->skip_to(4) && client->recall(5, now, call));
  CHECK(client->recall(5, now, call).error() == LR_E_TAKEN);
  CHECK(client->redirect(5, call).error() == LR_E_FORWARD);
  CHECK(client->connected(now) && !due_of(*client).empty());
  const auto none = client->forwarded(room);
  CHECK(none && !*none);
  std::array<std::uint8_t, 64> reply{};
  const auto size = lr::write_reply(reply, {2, lr::Order::big, 1}, lr::ReplyStatus::location_forward, "reference");
  CHECK(size && client->feed(lr::Octets(reply.data(), *size)));
  const auto led = client->forwarded(room);
  CHECK(led && *led && (*led)->call == 5 && (*led)->body_size == 9 && room[8] == 'e');
  CHECK(client->redirect(5, call) && due_of(*client).empty());
  CHECK(client->resend(now) && !due_of(*client).empty());
}

/* So is one by a body of octets. */
void a_raw_call_goes_on() {
  auto client = lr::Client::open("A");
  if (!client) return CHECK(false);
  lr::RawCall call{"c", "add", later, "\0\0\0\5"_o};
  CHECK(client->keep_forward(true) && client->connected(now) && client->call_raw(now, call).value_or(0) == 1);
  CHECK(client->redirect_raw(1, call).error() == LR_E_FORWARD && !due_of(*client).empty());
  std::array<std::uint8_t, 64> reply{};
  const auto size = lr::write_reply(reply, {2, lr::Order::big, 1}, lr::ReplyStatus::location_forward, "reference");
  CHECK(size && client->feed(lr::Octets(reply.data(), *size)));
  call.key = "other";
  CHECK(client->redirect_raw(1, call) && client->resend(now));
  auto assembler = lr::Assembler::open(limits);
  if (!assembler || !assembler->feed(due_of(*client))) return CHECK(false);
  const auto key = assembler->part(lr::Part::key);
  const auto body = assembler->part(lr::Part::body);
  CHECK(key && lr::Octets(*key).text() == "other" && body && *body == (Vector{0, 0, 0, 5}));
}

/* How often the library took memory. */
long allocations = 0;

void* allocate(std::size_t size) {
  allocations++;
  return std::malloc(size);
}

void* reallocate(void* at, std::size_t size) {
  allocations++;
  return std::realloc(at, size);
}

/* The body of an operation with types is octets as they came, in either order, and copying it takes no memory. */
void a_body_is_as_it_came() {
  auto server = open_server();
  if (!server || !server->connect(1)) return CHECK(false);
  for (const auto order : {lr::Order::big, lr::Order::little}) {
    std::array<std::uint8_t, 256> room;
    lr::GrowingWriter sent(order);
    CHECK(sent.put_long(5).done());
    const auto size = lr::write_request(room, {2, order, 1}, lr::Wish::full, "c", "add", sent.octets());
    CHECK(size && server->feed(1, now, lr::Octets(room).first(*size)));
    const auto asked = server->asked();
    if (!asked || !*asked) return CHECK(false);
    const auto& request = **asked;
    const long before = allocations;
    const auto body = server->part(request.ticket, lr::Part::body);
    CHECK(allocations == before && body && *body == Vector(sent.octets().begin(), sent.octets().end()));
    CHECK(request.byte_order() == order && request.body_at == *size - 4 && request.body_size == 4);
    CHECK(body && lr::Reader(*body, request.byte_order(), request.body_at).get_long().value_or(0) == 5);
    CHECK(server->answer(request.ticket, lr::Order::big, "\0\0\0\6"_o) && !due_of(*server, std::uint64_t{1}).empty());
  }
}

/* Each way to answer. */
void requests_are_answered() {
  auto server = open_server();
  if (!server || !server->connect(1)) return CHECK(false);
  std::array<std::uint8_t, 256> room;
  std::uint64_t ticket = 0;
  const auto ask = [&](const char* key, const char* operation, lr::Octets body) {
    const auto size = lr::write_request(room, {}, lr::Wish::full, key, operation, body);
    CHECK(size && server->feed(1, now, lr::Octets(room).first(*size)));
    const auto asked = server->asked();
    CHECK(asked && *asked);
    ticket = asked && *asked ? (*asked)->ticket : 0;
  };
  const auto status = [&] {
    const auto due = due_of(*server, std::uint64_t{1});
    return due.size() < 24 ? -1 : static_cast<int>(due[19]);
  };
  ask("c", "none", {});
  CHECK(server->answer(ticket, lr::Order::big, {}) && status() == LR_REPLY_NO_EXCEPTION);
  ask("c", "add", lr::Octets("\0\0\0\5", 4));
  std::array<std::uint8_t, 16> members;
  lr::Writer out(members);
  CHECK(out.put_string("why"));
  CHECK(server->raise(ticket, "IDL:C/Wrong:1.0", lr::Order::big, out.octets()) && status() == LR_REPLY_USER_EXCEPTION);
  ask("c", "any", "abc");
  CHECK(server->system(ticket + 1, lr::SystemException::unknown, 7, lr::Completed::maybe).error() == LR_E_TICKET);
  CHECK(server->system(ticket, lr::SystemException::unknown, 7, lr::Completed::maybe) &&
        status() == LR_REPLY_SYSTEM_EXCEPTION);
  ask("raw", "any", "abc");
  CHECK(server->answer_raw(ticket, lr::ReplyStatus::location_forward, lr::Order::big, "abc") &&
        status() == LR_REPLY_LOCATION_FORWARD);
  ask("c", "_non_existent", {});
  const auto is_identified = server->identify(ticket);
  CHECK(is_identified.ok() && *is_identified && status() == LR_REPLY_NO_EXCEPTION);
  CHECK(server->identify(ticket).error() == LR_E_TICKET);
  ask("raw", "any", "abc");
  CHECK(server->refuse(ticket, lr::SystemException::transient, 0) && status() == LR_REPLY_SYSTEM_EXCEPTION);
  CHECK(!server->is_closed(1));
  ask("raw", "any", "abc");
  CHECK(server->goodbye(ticket) && due_of(*server, std::uint64_t{1}).size() == 12 && server->is_closed(1));
  CHECK(server->connect(2) && server->why(2).value_or(lr::Why::memory) == lr::Why::open);
  const auto farewell = server->farewell(2);
  CHECK(farewell && *farewell == 0 && due_of(*server, std::uint64_t{2}).size() == 12 && server->is_closed(2));
  CHECK(server->why(2).value_or(lr::Why::open) == lr::Why::farewell && server->why(9).error() == LR_E_CONNECTION);
  CHECK(server->connect(3) && server->feed(3, now, "nonsense, and so on"));
  CHECK(server->why(3).value_or(lr::Why::open) == lr::Why::fault_magic);
  CHECK(server->give_up(ticket).error() == LR_E_IDLE);
}

/* Writes a request of a client's number, which adds 5. */
Vector request_of(std::uint32_t request_id, std::int32_t number, const char* operation = "add") {
  std::array<std::uint8_t, 64> ft;
  Vector octets(256);
  const auto context = lr::write_ft(ft, lr::Order::big, "A", number, later);
  const auto size =
      lr::write_request(octets, {2, lr::Order::big, request_id}, lr::Wish::full, "c", operation, "\0\0\0\5"_o,
                        {LR_CONTEXT_FT_REQUEST, lr::Octets(ft).first(context.value_or(0))});
  CHECK(context && size);
  octets.resize(size.value_or(0));
  return octets;
}

/* Feeds a request on a connection, which is parked where it is asked, and answers its ticket, or 0. */
std::uint64_t parked(lr::Server& server, std::uint64_t connection, const Vector& octets) {
  CHECK(server.feed(connection, now, octets));
  const auto asked = server.asked().value_or(std::nullopt);
  if (!asked) return 0;
  CHECK(server.park(asked->ticket));
  return asked->ticket;
}

/* Requests are parked, joined by a repeat, and answered in another order, each where it is waited for. */
void requests_are_parked() {
  auto server = open_server();
  if (!server || !server->connect(1) || !server->connect(2)) return CHECK(false);
  const auto first = parked(*server, 1, request_of(1, 1));
  const auto second = parked(*server, 1, request_of(2, 2));
  CHECK(first != 0 && second != 0 && parked(*server, 2, request_of(3, 1)) == 0);
  CHECK(*server->parked() == 2 && *server->parked_of(1) == 2 && *server->parked_of(2) == 0);
  CHECK(*server->wanted(first) == 2 && *server->wanted(second) == 1 && server->wanted(99).error() == LR_E_TICKET);
  const auto client = server->part(second, lr::Part::client);
  const auto body = server->part(second, lr::Part::body);
  CHECK(client && lr::Octets(*client).text() == "A" && body && body->size() == 4);
  CHECK(server->feed(1, now, request_of(4, 4)));
  const auto third = server->asked().value_or(std::nullopt).value_or(lr::Request{}).ticket;
  CHECK(server->park(third).error() == LR_E_PARKS);
  CHECK(server->answer(second, lr::Order::big, "\0\0\0\6"_o).error() == LR_E_ASKING);
  const auto context = server->context(0);
  CHECK(context && context->id == LR_CONTEXT_FT_REQUEST && server->context(1).error() == LR_E_NONE);
  CHECK(server->refuse(third, lr::SystemException::transient, 0) && !due_of(*server, std::uint64_t{1}).empty());
  CHECK(server->farewell(1).value_or(9) == 2 && !server->is_closed(1) && due_of(*server, std::uint64_t{1}).empty());
  CHECK(server->answer(second, lr::Order::big, "\0\0\0\6"_o));
  CHECK(server->answer(first, lr::Order::big, "\0\0\0\7"_o));
  std::uint64_t named = 0;
  for (const auto connection : server->due()) {
    named += connection;
    const auto octets = due_of(*server, connection);
    CHECK(octets.size() == (connection == 1 ? 56u + 12u : 28u) && octets[connection == 1 ? 55 : 27] == 7);
    CHECK(server->is_closed(connection) == (connection == 1));
  }
  CHECK(named == 3 && server->due().begin() == server->due().end());
  const auto none = server->next_due();
  CHECK(none && !*none && server->answer(first, lr::Order::big, "\0\0\0\7"_o).error() == LR_E_TICKET);
}

/* Whether a request that was parked is answered by an outcome, and what is due then. */
std::optional<Vector> answered_by(const lr::Outcome& outcome) {
  auto server = open_server();
  if (!server || !server->connect(1)) return {};
  const auto ticket = parked(*server, 1, request_of(1, 1));
  if (!server->answer_stored(ticket, outcome)) return {};
  return due_of(*server, std::uint64_t{1});
}

/* What is told and not kept is asked again. */
void unkept_outcomes_are_asked_again() {
  auto server = open_server();
  const lr::Outcome outcome{lr::ReplyStatus::no_exception, lr::Order::big, {0, 0, 0, 7}};
  CHECK(server && server->connect(1));
  for (int turn = 0; turn < 2; turn++) {
    const auto ticket = parked(*server, 1, request_of(1, 1));
    CHECK(server->answer_unkept(ticket, outcome));
    CHECK(due_of(*server, std::uint64_t{1}).size() > outcome.body.size());
    CHECK(server->answer_unkept(ticket, outcome).error() == LR_E_TICKET);
  }
}

/* Outcomes are stored, and answered by another server; here nothing is. */
void outcomes_are_stored() {
  auto server = open_server();
  if (!server || !server->connect(1)) return CHECK(false);
  const auto ticket = parked(*server, 1, request_of(1, 1));
  const auto can = server->can_answer(ticket, lr::Order::little, "\6\0\0\0"_o);
  const auto cannot = server->can_answer(ticket, lr::Order::big, {});
  CHECK(can.ok() && *can && cannot.ok() && !*cannot);
  CHECK(server->can_answer(99, lr::Order::big, {}).error() == LR_E_TICKET);
  const auto results = server->stored(ticket, lr::Order::little, "\6\0\0\0"_o);
  CHECK(results && results->status == lr::ReplyStatus::no_exception && results->order == lr::Order::little);
  CHECK(results && results->body == (Vector{6, 0, 0, 0}));
  CHECK(server->stored(ticket, lr::Order::big, {}).error() == LR_E_OUTCOME);
  CHECK(server->stored(99, lr::Order::big, {}).error() == LR_E_TICKET);
  lr::GrowingWriter members, wanted;
  const std::string why(100, 'y');
  CHECK(members.put_string(why).done() && wanted.put_string("IDL:C/Wrong:1.0").put_string(why).done());
  const auto raised = server->stored_exception(ticket, "IDL:C/Wrong:1.0", lr::Order::big, members.octets());
  CHECK(raised && raised->status == lr::ReplyStatus::user_exception && raised->order == lr::Order::big);
  CHECK(raised && raised->body == Vector(wanted.octets().begin(), wanted.octets().end()));
  CHECK(server->stored_exception(ticket, "IDL:O:1.0", lr::Order::big, members.octets()).error() == LR_E_OUTCOME);
  CHECK(server->stored_exception(99, "IDL:C/Wrong:1.0", lr::Order::big, members.octets()).error() == LR_E_TICKET);
  CHECK(due_of(*server, std::uint64_t{1}).empty());
  for (const auto* stored : {&results, &raised}) {
    if (!*stored) continue;
    const lr::Outcome& outcome = **stored;
    const bool is_big = outcome.order == lr::Order::big;
    const auto due = answered_by(outcome).value_or(Vector(24));
    CHECK(due[6] == (is_big ? 0 : 1) && due[is_big ? 19 : 16] == static_cast<std::uint8_t>(outcome.status));
    CHECK(Vector(due.begin() + 24, due.end()) == outcome.body);
  }
  CHECK(!answered_by({lr::ReplyStatus::location_forward_perm, lr::Order::big, {}}));
}

/* Service contexts of replies are those of one answer. */
void replies_have_contexts() {
  auto server = open_server();
  if (!server || !server->connect(1)) return CHECK(false);
  lr::GrowingWriter contexts;
  CHECK(contexts.put_count(1).put_ulong(7).put_octets("seven").done());
  for (const std::int32_t number : {1, 2}) {
    const auto ticket = parked(*server, 1, request_of(1, number));
    CHECK(server->reply_contexts(99, lr::Order::big, {}).error() == LR_E_TICKET);
    CHECK(server->reply_contexts(ticket, lr::Order::big, "\0\0"_o).error() == LR_E_SHORT);
    CHECK(number == 2 || server->reply_contexts(ticket, lr::Order::big, contexts.octets()));
    CHECK(server->answer(ticket, lr::Order::big, "\0\0\0\6"_o));
    auto assembler = lr::Assembler::open(limits);
    if (!assembler || !assembler->feed(due_of(*server, std::uint64_t{1}))) return CHECK(false);
    const auto message = assembler->message();
    CHECK(message && *message && (*message)->contexts == (number == 1 ? 1u : 0u) && (*message)->body_size == 4);
    const auto first = assembler->context(0);
    CHECK(number == 1 ? first && first->id == 7 && lr::Octets(first->data).text() == "seven" : !first);
  }
}

/* What a server says of itself, and what it exchanges. */
void servers_tell() {
  auto server = open_server();
  auto catalogue = lr::Catalogue::open();
  auto families = lr::Catalogue::open();
  if (!server || !catalogue || !families || !server->connect(1)) return CHECK(false);
  CHECK(server->feed(1, now, request_of(1, 1)));
  const auto asked = server->asked().value_or(std::nullopt).value_or(lr::Request{});
  CHECK(asked.contexts == 1 && server->answer(asked.ticket, lr::Order::big, "\0\0\0\6"_o));
  CHECK(*server->count(lr::Counted::asked) == 1 && *server->count(lr::Counted::kept) == 1);
  const auto expiry = server->next_expiry();
  CHECK(*server->held_by("A") == 1 && *server->held_by("B") == 0 && expiry && *expiry == later);
  CHECK(server->tick(later + 1) && *server->count(lr::Counted::kept) == 0);
  const auto gone = server->next_expiry();
  CHECK(gone && !*gone);
  CHECK(families->object("c/") && families->raw_operation("c/", "any") && catalogue->families(*families));
  CHECK(families->remove("c/").error() == LR_E_OBJECT && catalogue->default_object());
  CHECK(catalogue->default_object().error() == LR_E_TAKEN);
  CHECK(server->swap(*catalogue) && catalogue->remove("c") && catalogue->remove("c").error() == LR_E_OBJECT);
}

/* A call whose arguments are octets, and one that wants no reply. */
void calls_are_raw() {
  lr::ClientSettings settings;
  settings.version = 1;
  settings.partials = 17;
  CHECK(lr::Client::open("A", settings).error() == LR_E_RANGE);
  settings.partials = 3;
  settings.keep_forward = true;
  auto client = lr::Client::open("A", settings);
  if (!client) return CHECK(false);
  lr::RawCall call{"ccccc", "add", later, "\0\0\0\5"_o};
  CHECK(client->call_raw(now, call).value_or(0) == 1 && client->connected(now) && !due_of(*client).empty());
  call.wish = lr::Wish::none;
  CHECK(client->recall_raw(1, now, call).error() == LR_E_TAKEN && client->recall_raw(4, now, call));
  CHECK(!due_of(*client).empty());
  const auto sent = client->completed();
  CHECK(sent && *sent && (*sent)->call == 4 && (*sent)->ended() == lr::Ended::sent);
  CHECK(client->set(LR_CLIENT_VERSION, 2).error() == LR_E_OPEN);
}

void messages_are_read() {
  std::array<std::uint8_t, 256> room;
  std::array<std::uint8_t, 64> ft;
  auto assembler = lr::Assembler::open(limits);
  const auto context = lr::write_ft(ft, lr::Order::big, "A", 3, later);
  if (!assembler || !context) return CHECK(false);
  const auto size = lr::write_request(room, {2, lr::Order::little, 7}, lr::Wish::full, "c", "add", "abcd",
                                      {LR_CONTEXT_FT_REQUEST, lr::Octets(ft).first(*context)});
  CHECK(size);
  const auto taken = assembler->feed(lr::Octets(room).first(*size));
  CHECK(taken && *taken == *size);
  const auto message = assembler->message();
  CHECK(message && *message && (*message)->request_id == 7 && (*message)->retention_id == 3);
  CHECK((*message)->message_type() == lr::MessageType::request && (*message)->wished() == lr::Wish::full);
  CHECK((*message)->byte_order() == lr::Order::little);
  const auto operation = assembler->part(lr::Part::operation);
  CHECK(operation && lr::Octets(*operation).text() == "add");
  const auto found = assembler->context(0);
  CHECK(found && found->id == LR_CONTEXT_FT_REQUEST && found->data.size() == 24);
  CHECK(assembler->context(1).error() == LR_E_NONE);
  const auto fault = assembler->fault();
  CHECK(fault && *fault == lr::Fault::none);
  CHECK(lr::write_reply(room, {}, lr::ReplyStatus::no_exception, {}) && lr::write_cancel(room, {}) &&
        lr::write_close(room));
  CHECK(lr::write_locate_request(room, {}, "c") && lr::write_locate_reply(room, {}, lr::LocateStatus::object_here) &&
        lr::write_error(room));
  CHECK(lr::write_error({}).error() == LR_E_ROOM);
}

/* The numbers of messages have names. */
void messages_have_names() {
  std::array<std::uint8_t, 64> room;
  auto assembler = lr::Assembler::open(limits);
  if (!assembler) return CHECK(false);
  const auto read = [&](lr::Count size) {
    CHECK(size && assembler->feed(lr::Octets(room).first(size.value_or(0))));
    return assembler->message().value_or({}).value_or(lr::Message{});
  };
  const auto reply = read(lr::write_reply(room, {}, lr::ReplyStatus::user_exception, "12345678"));
  CHECK(reply.message_type() == lr::MessageType::reply && reply.byte_order() == lr::Order::big);
  CHECK(reply.reply_status() == lr::ReplyStatus::user_exception);
  const auto body = assembler->part(lr::Part::body);
  CHECK(body && lr::Octets(*body).text() == "12345678");
  const auto located = read(lr::write_locate_reply(room, {}, lr::LocateStatus::object_here));
  CHECK(located.message_type() == lr::MessageType::locate_reply);
  CHECK(located.locate_status() == lr::LocateStatus::object_here);
  CHECK(assembler->feed("no message at all").error() == LR_E_STREAM);
  const auto fault = assembler->fault();
  CHECK(fault && *fault == lr::Fault::magic);
}

/* A reference whose text is longer than the room that is tried first. */
void references_are_printed() {
  const std::string key(5000, 'k');
  auto ior = lr::Ior::iiop("IDL:C:1.0", 2, "host", 2809, key);
  if (!ior) return CHECK(false);
  const auto text = ior->print();
  CHECK(text && text->size() > 10000 && text->substr(0, 4) == "IOR:");
  auto other = lr::Ior::parse(*text);
  if (!other) return CHECK(false);
  const auto profile = other->profile(0);
  const auto part = other->part(0, lr::IorPart::key);
  const auto type = other->type_id();
  const auto count = other->profiles();
  CHECK(profile && profile->port == 2809 && profile->is_iiop == 1 && count && *count == 1);
  CHECK(part && lr::Octets(*part).text() == key && type && lr::Octets(*type).text() == "IDL:C:1.0");
  CHECK(other->component(0, 0).error() == LR_E_NONE);
  CHECK(lr::Ior::parse("IOR:").error() == LR_E_REFERENCE);
}

/* Each type, written and read in little order, and an encapsulation. */
void values_are_read() {
  std::array<std::uint8_t, 128> room;
  lr::Writer out(room, lr::Order::little, 3);
  CHECK(out.put_octet(1) && out.put_char('A') && out.put_boolean(true) && out.put_short(-2) && out.put_ushort(3));
  CHECK(out.put_long(-4) && out.put_ulong(5) && out.put_longlong(-6) && out.put_ulonglong(7));
  CHECK(out.put_float(1.5F) && out.put_double(-2.25));
  CHECK(out.put_string("text") && out.put_octets(lr::Octets("\1\0\2\0", 4)));
  lr::Reader in(out.octets(), lr::Order::little, 3);
  CHECK(*in.get_octet() == 1 && *in.get_char() == 'A' && *in.get_boolean());
  CHECK(*in.get_short() == -2 && *in.get_ushort() == 3 && *in.get_long() == -4 && *in.get_ulong() == 5);
  CHECK(*in.get_longlong() == -6 && *in.get_ulonglong() == 7);
  CHECK(*in.get_float() == 1.5F && *in.get_double() == -2.25 && *in.get_string() == "text");
  auto inner = in.get_encapsulation();
  CHECK(inner && in.rest().empty());
  const auto two = inner->get_ushort();
  CHECK(two && *two == 2 && inner->get_octet().error() == LR_E_SHORT);
  CHECK(in.get_boolean().error() == LR_E_SHORT && std::string_view(in.get_octet().error().text()).size() > 0);
  CHECK(std::string_view(in.get_octet().error().name()) == "LR_E_SHORT");
  lr::Writer full(lr::Room{});
  CHECK(full.put_octet(1).error() == LR_E_ROOM);
}

/* Octets are lent from ranges of any octets, bytes or characters. */
void octets_are_lent() {
  const std::string string("a\0b", 3);
  const std::array<char, 3> array{'a', 0, 'b'};
  const std::vector<std::byte> bytes{std::byte{'a'}, std::byte{0}, std::byte{'b'}};
  const std::byte three[] = {std::byte{'a'}, std::byte{0}, std::byte{'b'}};
  const std::uint8_t numbers[] = {'a', 0, 'b'};
  const char text[] = "a\0b";
  for (const lr::Octets octets :
       {lr::Octets(string), lr::Octets(array), lr::Octets(bytes), lr::Octets(three), lr::Octets(numbers), "a\0b"_o,
        lr::Octets(std::string_view(string)), lr::Octets(three, 3), lr::Octets(text, 3)})
    CHECK(octets.size() == 3 && octets.text() == string);
  CHECK(lr::Octets("a\0b").text() == "a" && lr::Octets(text).text() == "a" && lr::Octets("").empty());
  CHECK(""_o.empty() && lr::Octets(nullptr, 0).empty());
  char room[10] = "ab";
  CHECK(lr::Octets(room).size() == 2 && lr::Room(room).size() == 10 && lr::Room(nullptr, 0).size() == 0);
  std::string out(4, ' ');
  std::vector<std::byte> other(2);
  CHECK(lr::Writer(out).put_long(0x61626364) && out == "abcd");
  CHECK(lr::Writer(lr::Room(other)).put_short(3) && other[1] == std::byte{3});
#ifdef __cpp_lib_span
  const std::span<const std::byte> span(bytes);
  CHECK(lr::Octets(span).text() == string && lr::Reader(span).get_octet().value_or(0) == 'a');
#endif
}

/* What is made of a Result, and which of two values it has. */
void results_are_chained() {
  using Number = lr::Result<int>;
  const Number good = 7;
  const Number bad = lr::Error(LR_E_IDLE);
  const auto half = [](int n) { return n % 2 == 0 ? Number(n / 2) : lr::Error(LR_E_RANGE); };
  const auto twice = [](int n) { return 2.0 * n; };
  CHECK(good.value_or(1) == 7 && bad.value_or(1) == 1 && Number(bad).value_or({}) == 0);
  CHECK(good.and_then(half).error() == LR_E_RANGE && bad.and_then(half).error() == LR_E_IDLE);
  CHECK(Number(8).and_then(half).value_or(0) == 4);
  CHECK(good.transform(twice).value_or(0) == 14.0 && bad.transform(twice).error() == LR_E_IDLE);
  int seen = 0;
  const lr::Done done = good.transform([&](int n) { seen = n; });
  CHECK(done && seen == 7 && !bad.transform([&](int n) { seen = n + 1; }) && seen == 7);
  CHECK(done.and_then([&] { return good; }).value_or(0) == 7 && *done.transform([] { return 3; }) == 3);
  const lr::Done idle = lr::Error(LR_E_IDLE);
  CHECK(idle.and_then([&] { return good; }).error() == LR_E_IDLE && !idle.transform([] { return 3; }));
  auto opened = lr::Assembler::open(limits).and_then([](lr::Assembler made) -> lr::Result<lr::Assembler> {
    if (const auto fed = made.feed("GI"); !fed) return fed.error();
    return made;
  });
  CHECK(opened && opened->is_open());
  const auto is_open = std::move(opened).transform([](lr::Assembler made) { return made.is_open(); });
  CHECK(is_open.ok() && *is_open);
#ifdef __cpp_lib_expected
  const std::expected<int, lr::Error> some = good;
  const std::expected<int, lr::Error> none = bad;
  const std::expected<void, lr::Error> nothing = done;
  const std::expected<lr::Ior, lr::Error> moved = lr::Ior::parse("IOR:");
  CHECK(*some == 7 && none.error() == LR_E_IDLE && nothing && moved.error() == LR_E_REFERENCE);
#endif
}

/* What has no known size is asked for once where it is short, and twice where it is long. */
void parts_are_asked_for_once() {
  for (const std::size_t size : {0u, 1u, 64u, 65u, 1000u}) {
    int asked = 0;
    const auto copy = [&](std::uint8_t* room, std::size_t most) {
      asked++;
      for (std::size_t index = 0; index < most && index < size; index++) room[index] = 7;
      return static_cast<std::int64_t>(size);
    };
    const Vector sevens(size, 7);
    const auto copied = lr::detail::copied(copy);
    CHECK(copied && *copied == sevens && asked == (size <= 64 ? 1 : 2));
    asked = 0;
    const auto known = lr::detail::copied(copy, size);
    CHECK(known && *known == sevens && asked == 1);
  }
}

enum class Colour { red, green, blue };

/* Writes a value of each type, into room or into octets that grow. */
template <class Out>
void write_all(Out& out, const std::string& text) {
  static_cast<void>(out.put_octet(1));
  static_cast<void>(out.put_char('A'));
  static_cast<void>(out.put_boolean(true));
  static_cast<void>(out.put_short(-2));
  static_cast<void>(out.put_octet(9));
  static_cast<void>(out.put_ushort(3));
  static_cast<void>(out.put_long(-4));
  static_cast<void>(out.put_ulong(5));
  static_cast<void>(out.put_longlong(-6));
  static_cast<void>(out.put_octet(8));
  static_cast<void>(out.put_ulonglong(7));
  static_cast<void>(out.put_float(1.5F));
  static_cast<void>(out.put_double(-2.25));
  static_cast<void>(out.put_string(text));
  static_cast<void>(out.put_octets(text));
  static_cast<void>(out.put_enum(Colour::blue));
  static_cast<void>(out.put_enum(1));
  static_cast<void>(out.put_count(2));
}

/* What is written into octets that grow is what is written into room. */
void octets_grow() {
  for (const auto order : {lr::Order::big, lr::Order::little}) {
    for (std::size_t size = 0; size < 300; size++) {
      const std::string text(size, 't');
      std::array<std::uint8_t, 4096> room;
      lr::Writer into_room(room, order);
      lr::GrowingWriter out(order);
      for (int times = 0; times < 3; times++) {
        write_all(into_room, text);
        write_all(out, text);
      }
      CHECK(out.done() && out.order() == order);
      CHECK(out.octets().text() == into_room.octets().text());
    }
  }
  lr::GrowingWriter out;
  CHECK(out.octets().empty());
  CHECK(out.put_string("ann").put_longlong(5).put_enum(Colour::green).done());
  lr::Reader in(out.octets());
  CHECK(in.get_string().value_or("") == "ann" && in.get_longlong().value_or(0) == 5);
  CHECK(in.get_enum(1).error() == LR_E_VALUE && in.get_enum(2).value_or(0) == 1 && in.rest().empty());
  lr::GrowingWriter other = std::move(out);
  CHECK(out.octets().empty() && other.octets().size() == 20);
  out.put_octet(1);
  out = std::move(other);
  CHECK(other.octets().empty() && out.octets().size() == 20);
  const auto taken = out.take();
  CHECK(taken && taken->size() == 20 && out.octets().empty());
  CHECK(out.put_octet(7).done() && out.octets().size() == 1 && *out.octets().begin() == 7);
}

/* The first error of a writer whose octets grow is kept, and what was written before it. */
void first_errors_are_kept() {
  const std::uint8_t octet = 0;
  lr::GrowingWriter out;
  CHECK(out.put_octet(1).put_string("a\0b"_o.text()).put_octet(2).done().error() == LR_E_TEXT);
  CHECK(out.put_count(std::size_t{1} << 32).done().error() == LR_E_TEXT && out.octets().size() == 1);
  CHECK(out.take().error() == LR_E_TEXT && out.done() && out.octets().empty());
  CHECK(out.put_count(std::size_t{1} << 32).put_octet(1).done().error() == LR_E_LONG && out.octets().empty());
  out.clear();
  CHECK(out.put_octets({&octet, std::size_t{1} << 32}).done().error() == LR_E_LONG && out.octets().empty());
  CHECK(lr::GrowingWriter(static_cast<lr::Order>(2)).put_short(1).done().error() == LR_E_RANGE);
}

#ifdef __cpp_exceptions
/* Whether `new` is the one above. (Under valgrind it is another.) */
bool can_want_memory() {
  is_without_memory = true;
  void* at = nullptr;
  try {
    at = ::operator new(1);
  } catch (const std::bad_alloc&) {
  }
  is_without_memory = false;
  ::operator delete(at);
  return at == nullptr;
}

/* Where there is no memory an error is answered, and what was written stays. */
void want_of_memory_is_answered() {
  const std::array<std::uint8_t, 4096> many{};
  lr::GrowingWriter out;
  CHECK(out.put_octet(1).done());
  is_without_memory = true;
  const auto error = out.put_octets(many).put_octet(2).done().error();
  const auto copied = lr::detail::copied([](std::uint8_t*, std::size_t) { return std::int64_t{5}; });
  is_without_memory = false;
  CHECK(error == LR_E_MEMORY && out.octets().size() == 1 && copied.error() == LR_E_MEMORY);
  out.clear();
  CHECK(out.put_octets(many).done() && out.octets().size() == 4100);
}
#endif

/* A sequence that says more elements than octets are left is refused, and the reader stands where it stood. */
void counts_are_bounded() {
  std::array<std::uint8_t, 6> room;
  lr::Writer out(room);
  CHECK(out.put_count(2) && out.put_octet(1) && out.put_octet(2) && out.put_count(0).error() == LR_E_ROOM);
  CHECK(out.put_count(std::size_t{1} << 32).error() == LR_E_LONG);
  lr::Reader in(room);
  CHECK(in.get_count().value_or(9) == 2 && in.rest().size() == 2);
  lr::Reader less(lr::Octets(room).first(5));
  CHECK(less.get_count().error() == LR_E_SHORT && less.get_ulong().value_or(0) == 2);
}

void moments_are_counted() {
  using std::chrono::microseconds;
  using std::chrono::system_clock;
  CHECK(lr::moment(system_clock::time_point(microseconds(1500000))) == lr_moment(1, 500000000));
  CHECK(lr::now() > lr_moment(1600000000, 0));
}

}  // namespace

/* One that would be refused is asked for first, and answered by what is stored, or refused so. */
void refused_ones_are_asked_first() {
  auto catalogue = lr::Catalogue::open();
  lr::Settings settings;
  settings.ask_first = true;
  if (!catalogue || !catalogue->object("c") || !catalogue->operation("c", "add", {LR_TYPE_LONG}, {LR_TYPE_LONG}))
    return CHECK(false);
  auto server = lr::Server::open(*catalogue, {1, 2}, settings);
  if (!server || !server->connect(1)) return CHECK(false);
  const lr::Outcome stored{lr::ReplyStatus::no_exception, lr::Order::big, {0, 0, 0, 6}};
  const std::pair<const char*, std::optional<lr::SystemException>> others[] = {
      {"add", {}}, {"gone", lr::SystemException::bad_operation}};
  std::uint32_t id = 0;
  for (const auto& [operation, refusal] : others) {
    for (const bool is_stored : {true, false}) {
      CHECK(server->feed(1, now, request_of(++id, 1, operation)));
      const auto asked = server->asked().value_or(std::nullopt);
      if (!asked) return CHECK(false);
      CHECK(asked->refused_by() == refusal && (asked->is_raw != 0) == refusal.has_value());
      const auto name = asked->refused_by().value_or(lr::SystemException::transient);
      CHECK(is_stored ? server->answer_unkept(asked->ticket, stored) : server->refuse(asked->ticket, name, 0));
      const auto due = due_of(*server, std::uint64_t{1});
      CHECK(due.size() >= 28 && due[19] == (is_stored ? LR_REPLY_NO_EXCEPTION : LR_REPLY_SYSTEM_EXCEPTION));
    }
  }
}

int main() {
  CHECK(lr_set_heap(allocate, reallocate, std::free) == LR_OK);
  objects_move();
  messages_are_cut_anywhere();
  a_call_acts_once();
  a_call_goes_on();
  a_raw_call_goes_on();
  a_body_is_as_it_came();
  unkept_outcomes_are_asked_again();
  refused_ones_are_asked_first();
  outcomes_are_stored();
  replies_have_contexts();
  requests_are_answered();
  requests_are_parked();
  servers_tell();
  calls_are_raw();
  messages_are_read();
  messages_have_names();
  references_are_printed();
  values_are_read();
  octets_are_lent();
  results_are_chained();
  parts_are_asked_for_once();
  octets_grow();
  first_errors_are_kept();
#ifdef __cpp_exceptions
  if (can_want_memory()) want_of_memory_is_answered();
#endif
  counts_are_bounded();
  moments_are_counted();
  std::printf("%ld passed, %ld failed\n", passed, failed);
  return failed != 0;
}
