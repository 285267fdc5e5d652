// A client of omniORB for calls.idl, which knows nothing of relays: orb_client REFERENCE[,..] NAME COUNT THREADS KIND.
//
// KIND is tell, refuse, carry, mixed or a number: so many threads make so many calls together, each once, of one object after
// another, whose tokens are NAME and a number. Of each it prints the token and what came of it: `returned`, `refused`, or
// the name of the exception and NO, MAYBE or YES; after NO it waits a little. KIND talk says that wide characters, long
// octets and a reference in a reply pass, long that octets pass whose messages of 1.1 come in fragments, and any number
// calls perform, which takes so many milliseconds. carry has bodies of 9 kB to 200 kB both ways, and so has mixed at each
// second turn.
#include <algorithm>
#include <atomic>
#include <chrono>
#include <cstdlib>
#include <iostream>
#include <mutex>
#include <sstream>
#include <string>
#include <thread>
#include <vector>

#include "calls.hh"

static std::mutex lock;

static void print(const std::string& line) {
  std::lock_guard<std::mutex> held(lock);
  std::cout << line << std::endl;
}

// Octets that no other call of the same client has, of 9 kB to 200 kB.
static Calls::Octets octets_of(long number) {
  Calls::Octets octets;
  octets.length(9000 + CORBA::ULong(number * 7919 % 191001));
  for (CORBA::ULong at = 0; at < octets.length(); at++) octets[at] = CORBA::Octet((at + number) * 31 % 251);
  return octets;
}

static bool carries(Calls_ptr calls, const std::string& token, const Calls::Octets& octets) {
  Calls::Octets_var back = calls->carry(token.c_str(), octets);
  return back->length() == octets.length() &&
         std::equal(octets.get_buffer(), octets.get_buffer() + octets.length(), back->get_buffer());
}

static std::string call(Calls_ptr calls, const std::string& kind, const std::string& token, long number = 0) {
  try {
    std::ostringstream said;
    if (kind == "carry") {
      if (!carries(calls, token, octets_of(number))) return "wrong octets";
    } else if (kind == "tell") {
      calls->tell(token.c_str());
    } else if (kind == "refuse") {
      calls->refuse(token.c_str());
    } else {
      said << " " << calls->perform(token.c_str(), atoi(kind.c_str()));
    }
    return "returned" + said.str();
  } catch (const Calls::Refused& refused) {
    return std::string("refused ") + refused.token.in();
  } catch (const CORBA::SystemException& error) {
    static const char* const completed[] = {"YES", "NO", "MAYBE"};
    if (error.completed() == CORBA::COMPLETED_NO) std::this_thread::sleep_for(std::chrono::milliseconds(100));
    return std::string(error._name()) + " " + completed[error.completed()];
  }
}

// Whether so many octets come back as they are sent.
static bool passes(Calls_ptr calls, CORBA::ULong size) {
  Calls::Octets octets;
  octets.length(size);
  for (CORBA::ULong at = 0; at < size; at++) octets[at] = at % 251;
  Calls::Octets_var back = calls->whole(octets);
  if (back->length() != size) return false;
  for (CORBA::ULong at = 0; at < size; at++)
    if (back[at] != octets[at]) return false;
  return true;
}

static int pass_long(Calls_ptr calls) {
  for (CORBA::ULong size : {8000u, 9000u, 20000u, 30004u, 70000u, 3000000u})
    if (!passes(calls, size)) return 5;
  print("other.1 " + call(calls, "0", "other.1"));
  return 0;
}

static int talk(Calls_ptr calls) {
  const CORBA::WChar text[] = {0x4c, 0xe9, 0x6d, 0x20ac, 0};
  CORBA::WString_var wide = calls->wide(text);
  for (int at = 0; at < 5; at++)
    if (wide[at] != text[at]) return 1;
  for (CORBA::ULong size : {0u, 1u, 70000u, 5000000u})
    if (!passes(calls, size)) return 2;
  Calls_var other = calls->other();
  print("other.1 " + call(other, "0", "other.1"));
  print("other.2 " + call(other, "refuse", "other.2"));
  return 0;
}

int main(int count, char** words) {
  CORBA::ORB_var orb = CORBA::ORB_init(count, words);
  if (count != 6) return 2;
  std::vector<Calls_var> objects;
  std::istringstream references(words[1]);
  for (std::string reference; std::getline(references, reference, ',');) {
    CORBA::Object_var object = orb->string_to_object(reference.c_str());
    objects.push_back(Calls::_unchecked_narrow(object));
  }
  const Calls_var& calls = objects.front();
  const std::string name = words[2], kind = words[5];
  const long most = atol(words[3]);
  try {
    if (kind == "talk") return talk(calls);
    if (kind == "long") return pass_long(calls);
  } catch (const CORBA::SystemException& error) {
    print(error._name());
    return 4;
  }
  std::atomic<long> next{0};
  std::vector<std::thread> threads;
  for (int index = 0; index < atoi(words[4]); index++) {
    threads.emplace_back([&] {
      for (long number; (number = next++) < most;) {
        const std::string token = name + "." + std::to_string(number);
        const long turn = number / long(objects.size());
        const std::string what = kind != "mixed" ? kind : turn % 2 == 0 ? "0" : "carry";
        print(token + " " + call(objects[number % objects.size()], what, token, number));
      }
    });
  }
  for (std::thread& thread : threads) thread.join();
  orb->destroy();
  return 0;
}
