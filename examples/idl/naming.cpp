/*
 * Names objects at a naming service, as omniNames, by what omniidl makes of its CosNaming.idl.
 *
 *     omniidl -p idl -blemonrudder -Wbcpp -Cmade /usr/share/idl/omniORB/COS/CosNaming.idl
 *     c++ -std=c++17 -Imade examples/idl/naming.cpp $(pkg-config --cflags --libs lemonrudder) -o naming
 *     ./naming 127.0.0.1 2809 bind shop/bank IOR:..
 *     ./naming 127.0.0.1 2809 resolve shop/bank
 *
 * Its root is the object `NameService` at its address: what corbaloc::127.0.0.1:2809/NameService names.
 */
#include <cstdio>
#include <cstdlib>
#include <cstring>

#include "CosNaming_idl.hpp"

namespace lr = lemonrudder;
using CosNaming::Name;
using CosNaming::NamingContext;

namespace {

/* The name of a path: a component of each part, without a kind. */
Name name_of(std::string_view path) {
  Name name;
  for (std::size_t at = 0; at <= path.size();) {
    const std::size_t end = std::min(path.find('/', at), path.size());
    name.push_back({std::string(path.substr(at, end - at)), ""});
    at = end + 1;
  }
  return name;
}

/* What came of a call, as a status: why it failed is printed. */
template <class Outcome>
int status_of(const Outcome& outcome) {
  if (outcome) return 0;
  if (outcome.template raised<NamingContext::NotFound>())
    std::fprintf(stderr, "not found\n");
  else
    std::fprintf(stderr, "%s\n", outcome.system() ? outcome.system()->id.c_str() : outcome.why().c_str());
  return 1;
}

/* Names an object; contexts that are missing are made, and a name that is there is given anew. */
int name_object(const NamingContext& root, const Name& name, const char* text) {
  const auto reference = lr::idl::ObjectReference::parse(text);
  if (!reference) return std::fprintf(stderr, "%s\n", reference.error().text()), 1;
  for (auto end = name.begin() + 1; end < name.end(); ++end) {
    const auto made = root.bind_new_context(Name(name.begin(), end));
    if (!made && !made.raised<NamingContext::AlreadyBound>()) return status_of(made);
  }
  return status_of(root.rebind(name, *reference));
}

int find_object(const NamingContext& root, const Name& name) {
  const auto found = root.resolve(name);
  if (found) std::printf("%s\n", found->print()->c_str());
  return status_of(found);
}

}  // namespace

int main(int count, char** words) {
  if (count < 5) return 2;
  auto caller = lr::idl::Caller::open(words[1], static_cast<std::uint16_t>(std::atoi(words[2])));
  if (!caller) return 1;
  const NamingContext root(*caller, "NameService");
  return count > 5 ? name_object(root, name_of(words[4]), words[5]) : find_object(root, name_of(words[4]));
}
