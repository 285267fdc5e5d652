// The bank of examples/bank.idl over omniORB: a server, which prints its reference and serves until SIGTERM, and a client.
//
//     omniorb_bank serve
//     omniorb_bank deposit REFERENCE ACCOUNT AMOUNT
#include <csignal>
#include <cstdlib>
#include <iostream>
#include <map>
#include <string>

#include "bank.hh"

class Servant : public POA_Bank, public PortableServer::RefCountServantBase {
 public:
  CORBA::LongLong deposit(const char* account, CORBA::LongLong amount) override {
    CORBA::LongLong& balance = accounts_[account];
    if (balance + amount < 0) throw Bank::Overdrawn(balance);
    return balance += amount;
  }
  CORBA::LongLong balance(const char* account) override { return accounts_[account]; }

 private:
  std::map<std::string, CORBA::LongLong> accounts_;
};

static void serve(CORBA::ORB_ptr orb) {
  CORBA::Object_var root = orb->resolve_initial_references("RootPOA");
  PortableServer::POA_var poa = PortableServer::POA::_narrow(root);
  PortableServer::Servant_var<Servant> servant = new Servant;
  PortableServer::ObjectId_var id = poa->activate_object(servant);
  Bank_var bank = servant->_this();
  CORBA::String_var text = orb->object_to_string(bank);
  std::cout << text << std::endl;
  PortableServer::POAManager_var manager = poa->the_POAManager();
  manager->activate();
  sigset_t stop;
  sigemptyset(&stop);
  sigaddset(&stop, SIGTERM);
  int number = 0;
  sigwait(&stop, &number);
}

static void deposit(CORBA::ORB_ptr orb, char** words) {
  CORBA::Object_var object = orb->string_to_object(words[0]);
  Bank_var bank = Bank::_narrow(object);
  if (CORBA::is_nil(bank)) {
    std::cout << "no bank" << std::endl;
    return;
  }
  try {
    std::cout << bank->deposit(words[1], std::atoll(words[2])) << std::endl;
  } catch (const Bank::Overdrawn& raised) {
    std::cout << "overdrawn: " << raised.balance << std::endl;
  }
}

int main(int argc, char** argv) {
  // (each thread of the ORB has SIGTERM blocked, and this one waits for it)
  sigset_t stop;
  sigemptyset(&stop);
  sigaddset(&stop, SIGTERM);
  pthread_sigmask(SIG_BLOCK, &stop, nullptr);
  CORBA::ORB_var orb = CORBA::ORB_init(argc, argv);
  try {
    if (argc == 2)
      serve(orb);
    else if (argc == 5)
      deposit(orb, argv + 2);
  } catch (const CORBA::SystemException& error) {
    std::cout << error._name() << std::endl;
  }
  orb->destroy();
  return 0;
}
