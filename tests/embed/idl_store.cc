// The store of tests/embed/idl_files_test.py over omniORB: a server, and a client that prints what it is answered.
#include <csignal>
#include <iostream>
#include <string>

#include "store.hh"

static CORBA::ORB_ptr the_orb;

class Servant : public POA_Store::Deep, public PortableServer::RefCountServantBase {
 public:
  char* name() override { return CORBA::string_dup("deep"); }
  Store::Node* keep(const Store::Node& tree) override {
    if (*tree.name == 0) throw Store::Missing("none");
    auto* kept = new Store::Node(tree);
    kept->name = (std::string(tree.name) + "!").c_str();
    return kept;
  }
  CORBA::TypeCode_ptr put(CORBA::TypeCode_ptr value) override {
    const CORBA::Long number = value->length();
    if (number < 0) throw Store::Missing("below");
    return the_orb->create_string_tc(number + 1);
  }
  CORBA::Long call(CORBA::Long call) override { return call + 1; }
};

static void serve(CORBA::ORB_ptr orb) {
  CORBA::Object_var root = orb->resolve_initial_references("RootPOA");
  PortableServer::POA_var poa = PortableServer::POA::_narrow(root);
  PortableServer::Servant_var<Servant> servant = new Servant;
  PortableServer::ObjectId_var id = poa->activate_object(servant);
  Store::Deep_var deep = servant->_this();
  CORBA::String_var text = orb->object_to_string(deep);
  std::cout << text << std::endl;
  PortableServer::POAManager_var manager = poa->the_POAManager();
  manager->activate();
  sigset_t stop;
  sigemptyset(&stop);
  sigaddset(&stop, SIGTERM);
  int number = 0;
  sigwait(&stop, &number);
}

// (by the TypeCode of a string, whose bound it is)
static void put(Store::Deep_ptr deep, CORBA::Long number) {
  CORBA::TypeCode_var value = the_orb->create_string_tc(number), more = deep->put(value);
  std::cout << more->length() << std::endl;
}

template <class Call>
static void tried(Call call) {
  try {
    call();
  } catch (const Store::Missing& raised) {
    std::cout << "missing " << raised.name << std::endl;
  }
}

static void ask(CORBA::ORB_ptr orb, const char* reference) {
  CORBA::Object_var object = orb->string_to_object(reference);
  Store::Deep_var deep = Store::Deep::_narrow(object);
  CORBA::String_var name = deep->name();
  std::cout << name << std::endl;
  Store::Node tree;
  tree.name = "a";
  tree.children.length(2);
  tree.children[1].name = "b";
  tree.children[1].children.length(1);
  tree.children[1].children[0].name = "c";
  Store::Node_var kept = deep->keep(tree);
  std::cout << kept->name << ' ' << kept->children.length() << ' ' << kept->children[1].children[0].name << std::endl;
  tried([&] { deep->keep(Store::Node()); });
  tried([&] { put(deep, 5); });
  tried([&] { put(deep, -1); });
  std::cout << deep->call(4) << std::endl;
}

int main(int argc, char** argv) {
  // (each thread of the ORB has SIGTERM blocked, and this one waits for it)
  sigset_t stop;
  sigemptyset(&stop);
  sigaddset(&stop, SIGTERM);
  pthread_sigmask(SIG_BLOCK, &stop, nullptr);
  CORBA::ORB_var orb = the_orb = CORBA::ORB_init(argc, argv);
  try {
    if (argc == 3)
      ask(orb, argv[2]);
    else
      serve(orb);
  } catch (const CORBA::SystemException& error) {
    std::cout << error._name() << std::endl;
  }
  orb->destroy();
}
