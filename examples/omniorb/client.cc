#include <iostream>
#include "hello.hh"

int main(int argc, char **argv) {
    CORBA::ORB_var orb = CORBA::ORB_init(argc, argv);
    CORBA::Object_var object = orb->string_to_object(argv[1]);
    Hello_var hello = Hello::_narrow(object);
    if (CORBA::is_nil(hello)) return 1;
    hello->ping();
    hello->visits(hello->visits() + 1);
    hello->greeting("good day");
    CORBA::String_var greeting = hello->greeting();
    CORBA::String_var said = hello->echo("hello");
    std::cout << hello->visits() << " " << greeting << " " << said << std::endl;
    orb->destroy();
    return 0;
}
