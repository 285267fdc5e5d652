// A server of omniORB for the counter of examples/counter.idl. It prints its reference and serves until SIGTERM.
#include <csignal>
#include <iostream>

#include "counter.hh"

class Servant : public POA_Counter, public PortableServer::RefCountServantBase {
 public:
  CORBA::LongLong add(CORBA::Long n) override { return total_ += n; }
  CORBA::LongLong get() override { return total_; }

 private:
  CORBA::LongLong total_ = 0;
};

int main(int argc, char** argv) {
  // (each thread of the ORB has SIGTERM blocked, and this one waits for it)
  sigset_t stop;
  sigemptyset(&stop);
  sigaddset(&stop, SIGTERM);
  pthread_sigmask(SIG_BLOCK, &stop, nullptr);
  CORBA::ORB_var orb = CORBA::ORB_init(argc, argv);
  CORBA::Object_var root = orb->resolve_initial_references("RootPOA");
  PortableServer::POA_var poa = PortableServer::POA::_narrow(root);
  PortableServer::Servant_var<Servant> servant = new Servant;
  PortableServer::ObjectId_var id = poa->activate_object(servant);
  Counter_var counter = servant->_this();
  CORBA::String_var text = orb->object_to_string(counter);
  std::cout << text << std::endl;
  PortableServer::POAManager_var manager = poa->the_POAManager();
  manager->activate();
  int number = 0;
  sigwait(&stop, &number);
  orb->destroy();
  return 0;
}
