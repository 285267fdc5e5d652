// The box of tests/embed/idl_any_test.py over omniORB: a server, and a client of any box. What an any has is made, and
// looked at when it comes back, by omniORB alone.
#include <omniORB4/CORBA.h>
#include <omniORB4/fixed.h>

#include <csignal>
#include <functional>
#include <iostream>
#include <string>
#include <vector>

#include "box.hh"

static CORBA::ORB_ptr the_orb;
static DynamicAny::DynAnyFactory_var factory;

// ---- anys ----

template <class T>
static CORBA::Any of(const T& value) {
  CORBA::Any made;
  made <<= value;
  return made;
}

static Pass::Point point_of(CORBA::Short x, CORBA::Double y) {
  Pass::Point made;
  made.x = x;
  made.y = y;
  return made;
}

static Pass::Points points() {
  Pass::Points made;
  made.length(3);
  for (CORBA::ULong index = 0; index < 3; index++) made[index] = point_of(CORBA::Short(index - 1), index / 4.0);
  return made;
}

static Pass::Node tree() {
  Pass::Node made;
  made.name = "root";
  made.children.length(2);
  made.children[0].name = "a leaf";
  made.children[1].name = "b";
  made.children[1].children.length(1);
  made.children[1].children[0].name = "";
  return made;
}

static CORBA::Any pick(CORBA::Long number) {
  Pass::Pick made;
  if (number == 1) made.text("picked");
  if (number == 2) made.spot(point_of(-2, 0.5));
  if (number == 3) made.other(200);
  return of(made);
}

static CORBA::Any wide() {
  Pass::Wide made;
  if (sizeof made > 0) made.big(CORBA::LongLong(-7));
  return of(made);
}

static CORBA::Any grid() {
  Pass::Grid made;
  for (int index = 0; index < 6; index++) made[index / 3][index % 3] = index - 2.5;
  return of(Pass::Grid_forany(made));
}

static CORBA::Any named() {
  Pass::Names made;
  made.length(3);
  made[1] = "b";
  made[2] = "longer than that";
  return of(made);
}

static CORBA::Any octets() {
  Pass::Octets made;
  made.length(70001);
  for (CORBA::ULong index = 0; index < made.length(); index++) made[index] = CORBA::Octet(index * 7);
  return of(made);
}

static CORBA::Any longs() {
  Pass::Longs made;
  made.length(1000);
  for (CORBA::ULong index = 0; index < made.length(); index++) made[index] = CORBA::LongLong(index) << 40;
  return of(made);
}

static CORBA::Any held() {
  Pass::Held made;
  made.tag = 9;
  made.one <<= of(points());
  made.more.length(3);
  made.more[0] <<= CORBA::Double(0.125);
  made.more[2] <<= tree();
  return of(made);
}

static CORBA::Any reference() {
  CORBA::Object_var object = the_orb->string_to_object("corbaloc:iiop:1.2@127.0.0.1:9/key");
  CORBA::Any made;
  made <<= object.in();
  return made;
}

static CORBA::Any tuple() {
  DynamicAny::DynAny_var made = factory->create_dyn_any_from_type_code(Pass::_tc_Tuple);
  CORBA::Any_var found = made->to_any();
  return found.in();
}

struct Made {
  const char* name;
  std::function<CORBA::Any()> make;
};

static const std::vector<Made> basics = {
    {"boolean", [] { CORBA::Any made; made <<= CORBA::Any::from_boolean(true); return made; }},
    {"char", [] { CORBA::Any made; made <<= CORBA::Any::from_char('x'); return made; }},
    {"octet", [] { CORBA::Any made; made <<= CORBA::Any::from_octet(200); return made; }},
    {"short", [] { return of(CORBA::Short(-5)); }},
    {"ushort", [] { return of(CORBA::UShort(65000)); }},
    {"long", [] { return of(CORBA::Long(-70000)); }},
    {"ulong", [] { return of(CORBA::ULong(4000000000U)); }},
    {"longlong", [] { return of(CORBA::LongLong(-5000000000LL)); }},
    {"ulonglong", [] { return of(CORBA::ULongLong(10000000000000000000ULL)); }},
    {"float", [] { return of(CORBA::Float(0.5)); }},
    {"double", [] { return of(CORBA::Double(-0.375)); }},
    {"string", [] { return of("a text"); }},
};
static const std::vector<Made> others = {
    {"null", [] { return CORBA::Any(); }},
    {"void", [] { CORBA::Any made; made.replace(CORBA::_tc_void, nullptr); return made; }},
    {"bounded", [] { CORBA::Any made; made <<= CORBA::Any::from_string("abc", 5); return made; }},
    {"struct", [] { return of(point_of(-1, 1.5)); }},
    {"structs", [] { return of(points()); }},
    {"text of a union", [] { return pick(1); }},
    {"struct of a union", [] { return pick(2); }},
    {"default of a union", [] { return pick(3); }},
    {"union by 64 bits", wide},
    {"enum", [] { return of(Pass::green); }},
    {"recursion", [] { return of(tree()); }},
    {"array", grid},
    {"strings", named},
    {"octets", octets},
    {"longs", longs},
    {"nested", [] { return of(of(of(points()))); }},
    {"anys", held},
    {"reference", reference},
    {"TypeCode", [] { CORBA::Any made; made <<= Pass::_tc_Node; return made; }},
    {"aliases", tuple},
    {"fixed", [] { CORBA::Any made; made <<= CORBA::Any::from_fixed(CORBA::Fixed("-12.345"), 7, 4); return made; }},
};

static std::vector<Made> all() {
  std::vector<Made> found = basics;
  found.insert(found.end(), others.begin(), others.end());
  return found;
}

static CORBA::Any made(const std::string& name) {
  for (const Made& one : all())
    if (name == one.name) return one.make();
  throw CORBA::BAD_PARAM();
}

static bool is_same(const CORBA::Any& wanted, const CORBA::Any& found) {
  CORBA::TypeCode_var one = wanted.type(), two = found.type();
  if (!one->equal(two)) return false;
  if (one->kind() == CORBA::tk_null || one->kind() == CORBA::tk_void) return true;
  DynamicAny::DynAny_var first = factory->create_dyn_any(wanted), second = factory->create_dyn_any(found);
  return first->equal(second);
}

static bool is_of(const std::string& name, const CORBA::Any& found) { return is_same(made(name), found); }

// ---- the box ----

class Servant : public POA_Pass::Box, public PortableServer::RefCountServantBase {
 public:
  Pass::Names* known(CORBA::Boolean are_basic) override {
    const std::vector<Made> every = are_basic ? basics : all();
    auto* found = new Pass::Names;
    for (const Made& one : every) {
      found->length(found->length() + 1);
      (*found)[found->length() - 1] = one.name;
    }
    return found;
  }
  CORBA::Any* make(const char* name) override { return new CORBA::Any(made(name)); }
  CORBA::Boolean check(const char* name, const CORBA::Any& one) override { return is_of(name, one); }
  CORBA::Any* turn(const CORBA::Any& one, CORBA::Any&, CORBA::Any_OUT_arg three) override {
    three = new CORBA::Any(one);
    return new CORBA::Any(one);
  }
  Pass::Held* hold(const Pass::Held& one) override { return new Pass::Held(one); }
  Pass::Either* pick(const Pass::Either& one) override { return new Pass::Either(one); }
  void fail(CORBA::Octet why, const CORBA::Any& what) override { throw Pass::Bad(why, what); }
  CORBA::Any* kept() override { return new CORBA::Any(kept_); }
  void kept(const CORBA::Any& one) override { kept_ = one; }

 private:
  CORBA::Any kept_;
};

static void serve() {
  CORBA::Object_var root = the_orb->resolve_initial_references("RootPOA");
  PortableServer::POA_var poa = PortableServer::POA::_narrow(root);
  PortableServer::Servant_var<Servant> servant = new Servant;
  PortableServer::ObjectId_var id = poa->activate_object(servant);
  Pass::Box_var box = servant->_this();
  CORBA::String_var text = the_orb->object_to_string(box);
  std::cout << text << std::endl;
  PortableServer::POAManager_var manager = poa->the_POAManager();
  manager->activate();
  sigset_t stop;
  sigemptyset(&stop);
  sigaddset(&stop, SIGTERM);
  int number = 0;
  sigwait(&stop, &number);
}

// How often an any comes back as it went.
static int passed(Pass::Box_ptr box, const std::string& name) {
  const CORBA::Any one = made(name);
  CORBA::Any two = one;
  CORBA::Any_var three;
  int count = 0;
  CORBA::Any_var back = box->turn(one, two, three.out());
  count += is_of(name, back) + is_of(name, two) + is_of(name, three);
  Pass::Held held;
  held.tag = 3;
  held.one = one;
  held.more.length(2);
  held.more[0] = held.more[1] = one;
  Pass::Held_var kept = box->hold(held);
  count += is_of(name, kept->one) + is_of(name, kept->more[0]) + is_of(name, kept->more[1]);
  Pass::Either either;
  either.one(one);
  Pass::Either_var picked = box->pick(either);
  count += picked->_d() && is_of(name, picked->one());
  try {
    box->fail(7, one);
  } catch (const Pass::Bad& raised) {
    count += raised.why == 7 && is_of(name, raised.what);
  }
  box->kept(one);
  CORBA::Any_var last = box->kept();
  return count + is_of(name, last);
}

static void ask(const char* reference) {
  CORBA::Object_var object = the_orb->string_to_object(reference);
  Pass::Box_var box = Pass::Box::_narrow(object);
  for (const Made& one : all()) std::cout << one.name << ' ' << passed(box, one.name) << std::endl;
  for (const Made& one : basics) {
    CORBA::Any_var its = box->make(one.name);
    std::cout << "of " << one.name << ' ' << is_of(one.name, its) << ' ' << bool(box->check(one.name, one.make()))
              << std::endl;
  }
}

int main(int argc, char** argv) {
  // (each thread of the ORB has SIGTERM blocked, and this one waits for it)
  sigset_t stop;
  sigemptyset(&stop);
  sigaddset(&stop, SIGTERM);
  pthread_sigmask(SIG_BLOCK, &stop, nullptr);
  CORBA::ORB_var orb = the_orb = CORBA::ORB_init(argc, argv);
  try {
    CORBA::Object_var found = orb->resolve_initial_references("DynAnyFactory");
    factory = DynamicAny::DynAnyFactory::_narrow(found);
    if (argc == 3)
      ask(argv[2]);
    else
      serve();
  } catch (const CORBA::SystemException& error) {
    std::cout << error._name() << std::endl;
  } catch (const CORBA::UserException& error) {
    std::cout << error._name() << std::endl;
  }
  orb->destroy();
}
