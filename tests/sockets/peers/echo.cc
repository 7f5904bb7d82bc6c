// An object of omniORB's that echoes: prints its reference, and serves until it is killed.
#include <cstdio>
#include "echo.hh"

class Echoes : public POA_Echo {
public:
  char* echoString(const char* mesg) { return CORBA::string_dup(mesg); }
};

int main(int argc, char** argv) {
  CORBA::ORB_var orb = CORBA::ORB_init(argc, argv);
  CORBA::Object_var root = orb->resolve_initial_references("RootPOA");
  PortableServer::POA_var poa = PortableServer::POA::_narrow(root);
  Echoes echoes;
  PortableServer::ObjectId_var id = poa->activate_object(&echoes);
  CORBA::Object_var object = echoes._this();
  CORBA::String_var reference = orb->object_to_string(object);
  std::puts(reference);
  std::fflush(stdout);
  PortableServer::POAManager_var manager = poa->the_POAManager();
  manager->activate();
  orb->run();
}
