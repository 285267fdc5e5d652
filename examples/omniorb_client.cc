// A client of omniORB 4.2 for the counter of `giop serve`:
//
//     omniidl -bcxx counter.idl
//     g++ -o client omniorb_client.cc counterSK.cc -lomniORB4 -lomnithread
//     ./client REFERENCE CLIENT NUMBER -ORBmaxGIOPConnectionPerServer 1
//
// It calls add(7) with the FT_REQUEST context of a client's request of this number, which never expires, and then get().
#include "counter.hh"
#include <omniORB4/omniInterceptors.h>
#include <cstdlib>
#include <iostream>
#include <string>

typedef omni::omniInterceptors::clientSendRequest_T::info_T Info;

static std::string context;

// Appends a number as so many octets in big order.
static void put(unsigned long long number, int octets) {
  while (octets--) context += char(number >> 8 * octets & 255);
}

// FT::FTRequestServiceContext in an encapsulation: its byte order, client_id, retention_id, expiration_time.
static void fill(const std::string& client, long number) {
  context.clear();
  put(0, 4);
  put(client.size() + 1, 4);
  context += client + '\0';
  while (context.size() % 4) put(0, 1);
  put(number, 4);
  while (context.size() % 8) put(0, 1);
  put(~0ULL, 8);
}

static CORBA::Boolean add_context(Info& info) {
  if (context.empty()) return true;
  CORBA::ULong last = info.service_contexts.length();
  info.service_contexts.length(last + 1);
  info.service_contexts[last].context_id = 13;  // IOP::FT_REQUEST
  info.service_contexts[last].context_data.length(context.size());
  context.copy(reinterpret_cast<char*>(info.service_contexts[last].context_data.get_buffer()), context.size());
  return true;
}

int main(int argc, char** argv) {
  CORBA::ORB_var orb = CORBA::ORB_init(argc, argv);
  omniORB::getInterceptors()->clientSendRequest.add(add_context);
  if (argc != 4) return 2;
  try {
    CORBA::Object_var object = orb->string_to_object(argv[1]);
    Counter_var counter = Counter::_unchecked_narrow(object);
    fill(argv[2], atol(argv[3]));
    std::cout << "add " << counter->add(7) << std::endl;
    context.clear();
    std::cout << "get " << counter->get() << std::endl;
  } catch (const CORBA::SystemException& error) {
    std::cout << error._name() << std::endl;
    return 1;
  }
  orb->destroy();
  return 0;
}
