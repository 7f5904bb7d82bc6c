// An object `K` that gives back what it is given, on a port of 127.0.0.1, until its input ends.
#include <cstdio>
#include <string>
#include "echo.hh"

class Echo : public POA_P {
public:
    void ping() override {}
    Data *octets(const Data &given) override { return new Data(given); }
};

int main(int count, char **words) {
    if (count != 2) return 2;
    std::string point = std::string("giop:tcp:127.0.0.1:") + words[1];
    const char *options[][2] = {{"endPoint", point.c_str()}, {nullptr, nullptr}};
    int none = 0;
    CORBA::ORB_var orb = CORBA::ORB_init(none, nullptr, "omniORB4", options);
    CORBA::Object_var object = orb->resolve_initial_references("omniINSPOA");
    PortableServer::POA_var poa = PortableServer::POA::_narrow(object);
    PortableServer::ObjectId_var id = PortableServer::string_to_ObjectId("K");
    poa->activate_object_with_id(id, new Echo);
    PortableServer::POAManager_var manager = poa->the_POAManager();
    manager->activate();
    std::puts("serving");
    std::fflush(stdout);
    while (std::getchar() != EOF) {}
    orb->destroy();
    return 0;
}
