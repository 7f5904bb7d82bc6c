// Calls an object of hello.idl by omniORB, and prints how many calls gave what they should.
#include <cstdlib>
#include <iostream>
#include <string>
#include "hello.hh"

int main(int argc, char **argv) {
    CORBA::ORB_var orb = CORBA::ORB_init(argc, argv);
    CORBA::Object_var object = orb->string_to_object(argv[1]);
    Hello_var hello = Hello::_narrow(object);
    if (CORBA::is_nil(hello)) return 1;
    // omniORB sends a long text in fragments
    std::string long_text(200000, 'x');
    long right = 0;
    for (int turn = 0; turn < 100; turn++) {
        hello->ping();
        hello->visits(turn);
        CORBA::Long visits = hello->visits();
        std::string text = "turn " + std::to_string(turn);
        CORBA::String_var said = hello->echo(text.c_str());
        right += 0 <= visits && visits < 100 && said.in() == text;
    }
    CORBA::String_var said = hello->echo(long_text.c_str());
    right += said.in() == long_text;
    std::cout << right << std::endl;
    orb->destroy();
    return 0;
}
