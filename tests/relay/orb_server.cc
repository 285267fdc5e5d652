// A server of omniORB for calls.idl: orb_server FILE [HOPS HOW].. It appends the token of each call that it performs to the
// file, prints its reference, and serves until it is ended. For each HOPS it prints one more, of an object whose
// ServantLocator forwards each call, so many times until it is at the object that performs: by HOW once, for good, or round
// and round.
#include <fcntl.h>
#include <time.h>
#include <unistd.h>

#include <atomic>
#include <iostream>
#include <string>

#include "calls.hh"
#include <omniORB4/omniORB.h>

static int file = -1;
static std::atomic<CORBA::LongLong> performed{0};

static CORBA::LongLong note(const char* token) {
  std::string line = std::string(token) + "\n";
  if (write(file, line.data(), line.size()) != ssize_t(line.size())) throw CORBA::PERSIST_STORE();
  return performed++;
}

class Servant : public POA_Calls, public PortableServer::RefCountServantBase {
 public:
  CORBA::LongLong perform(const char* token, CORBA::Long milliseconds) override {
    CORBA::LongLong before = note(token);
    timespec pause = {milliseconds / 1000, milliseconds % 1000 * 1000000L};
    if (milliseconds > 0) nanosleep(&pause, nullptr);
    return before;
  }
  void tell(const char* token) override { note(token); }
  void refuse(const char* token) override {
    note(token);
    throw Calls::Refused(token);
  }
  CORBA::WChar* wide(const CORBA::WChar* text) override { return CORBA::wstring_dup(text); }
  Calls::Octets* whole(const Calls::Octets& octets) override { return new Calls::Octets(octets); }
  Calls::Octets* carry(const char* token, const Calls::Octets& octets) override {
    note(token);
    return new Calls::Octets(octets);
  }
  Calls_ptr other() override {
    PortableServer::POA_var poa = _default_POA();
    PortableServer::Servant_var<Servant> servant = new Servant;
    PortableServer::ObjectId_var id = poa->activate_object(servant);
    return servant->_this();
  }
};

// Leads each call to another object for good.
class Leader : public POA_Calls, public PortableServer::RefCountServantBase {
 public:
  explicit Leader(CORBA::Object_ptr to) : to_(CORBA::Object::_duplicate(to)) {}
  CORBA::LongLong perform(const char*, CORBA::Long) override { throw led(); }
  void tell(const char*) override { throw led(); }
  void refuse(const char*) override { throw led(); }
  CORBA::WChar* wide(const CORBA::WChar*) override { throw led(); }
  Calls::Octets* whole(const Calls::Octets&) override { throw led(); }
  Calls::Octets* carry(const char*, const Calls::Octets&) override { throw led(); }
  Calls_ptr other() override { throw led(); }

 private:
  omniORB::LOCATION_FORWARD led() { return omniORB::LOCATION_FORWARD(CORBA::Object::_duplicate(to_), true); }
  CORBA::Object_var to_;
};

// Forwards what is asked of the object N to N - 1, and of 1 to an object that performs; or of each to itself.
class Locator : public POA_PortableServer::ServantLocator {
 public:
  Locator(CORBA::Object_ptr last, const std::string& how) : last_(CORBA::Object::_duplicate(last)), how_(how) {}
  PortableServer::Servant preinvoke(const PortableServer::ObjectId& id, PortableServer::POA_ptr poa, const char*,
                                    PortableServer::ServantLocator::Cookie&) override {
    CORBA::String_var name = PortableServer::ObjectId_to_string(id);
    int hop = atoi(name) - (how_ == "round" ? 0 : 1);
    CORBA::Object_var next = hop == 0 ? CORBA::Object::_duplicate(last_) : at(poa, hop);
    if (how_ == "good") return new Leader(next);
    throw PortableServer::ForwardRequest(next);
  }
  void postinvoke(const PortableServer::ObjectId&, PortableServer::POA_ptr, const char*,
                  PortableServer::ServantLocator::Cookie, PortableServer::Servant servant) override {
    servant->_remove_ref();
  }

  static CORBA::Object_ptr at(PortableServer::POA_ptr poa, int hop) {
    PortableServer::ObjectId_var id = PortableServer::string_to_ObjectId(std::to_string(hop).c_str());
    return poa->create_reference_with_id(id, "IDL:Calls:1.0");
  }

 private:
  CORBA::Object_var last_;
  std::string how_;
};

// Has who asks for a POA that is not made yet wait until all are: it is called once their manager is active.
class Waiting : public POA_PortableServer::AdapterActivator, public PortableServer::RefCountServantBase {
 public:
  CORBA::Boolean unknown_adapter(PortableServer::POA_ptr, const char*) override { return true; }
};

// A reference to an object whose calls are forwarded so many times.
static CORBA::Object_ptr forwarded(PortableServer::POA_ptr root, PortableServer::POAManager_ptr manager,
                                   CORBA::Object_ptr last, int hops, const std::string& how) {
  CORBA::PolicyList policies;
  policies.length(4);
  policies[0] = root->create_lifespan_policy(PortableServer::PERSISTENT);
  policies[1] = root->create_id_assignment_policy(PortableServer::USER_ID);
  policies[2] = root->create_servant_retention_policy(PortableServer::NON_RETAIN);
  policies[3] = root->create_request_processing_policy(PortableServer::USE_SERVANT_MANAGER);
  PortableServer::POA_var poa = root->create_POA((how + std::to_string(hops)).c_str(), manager, policies);
  PortableServer::ServantManager_var locator = (new Locator(last, how))->_this();
  poa->set_servant_manager(locator);
  return Locator::at(poa, hops);
}

int main(int count, char** words) {
  CORBA::ORB_var orb = CORBA::ORB_init(count, words);
  if (count < 2 || count % 2 != 0 || (file = open(words[1], O_WRONLY | O_APPEND | O_CREAT, 0644)) < 0) return 2;
  // (a line has more than one octet: no result is one of a life before)
  performed = lseek(file, 0, SEEK_END);
  CORBA::Object_var root = orb->resolve_initial_references("RootPOA");
  PortableServer::POA_var poa = PortableServer::POA::_narrow(root);
  PortableServer::AdapterActivator_var waiting = (new Waiting)->_this();
  poa->the_activator(waiting);
  // (the object keeps its key when the server is started again)
  CORBA::PolicyList policies;
  policies.length(2);
  policies[0] = poa->create_lifespan_policy(PortableServer::PERSISTENT);
  policies[1] = poa->create_id_assignment_policy(PortableServer::USER_ID);
  PortableServer::POAManager_var manager = poa->the_POAManager();
  PortableServer::POA_var named = poa->create_POA("named", manager, policies);
  PortableServer::Servant_var<Servant> servant = new Servant;
  PortableServer::ObjectId_var id = PortableServer::string_to_ObjectId("calls");
  named->activate_object_with_id(id, servant);
  CORBA::Object_var object = named->id_to_reference(id);
  std::string references;
  for (int at = 0; at < count; at += 2) {
    CORBA::Object_var one = CORBA::Object::_duplicate(object);
    if (at > 0) one = forwarded(poa, manager, object, atoi(words[at]), words[at + 1]);
    CORBA::String_var text = orb->object_to_string(one);
    references += std::string(text) + "\n";
  }
  manager->activate();
  std::cout << references << std::flush;
  orb->run();
  return 0;
}
