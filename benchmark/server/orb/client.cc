// Calls the object `K` for so many milliseconds, with so many octets each time, and prints how many
// round trips a second there were: client PORT OCTETS MILLISECONDS.
#include <chrono>
#include <cstdio>
#include <cstdlib>
#include <string>
#include "echo.hh"

int main(int count, char **words) {
    if (count != 4) return 2;
    int none = 0;
    CORBA::ORB_var orb = CORBA::ORB_init(none, nullptr, "omniORB4");
    std::string name = std::string("corbaloc:iiop:1.2@127.0.0.1:") + words[1] + "/K";
    CORBA::Object_var object = orb->string_to_object(name.c_str());
    P_var server = P::_unchecked_narrow(object);
    Data given;
    given.length(std::atoi(words[2]));
    for (CORBA::ULong i = 0; i < given.length(); i++) given[i] = i % 251;
    using clock = std::chrono::steady_clock;
    auto begin = clock::now(), end = begin + std::chrono::milliseconds(std::atoi(words[3]));
    long trips = 0;
    while (clock::now() < end) {
        Data_var got = server->octets(given);
        if (got->length() != given.length() || got[given.length() - 1] != given[given.length() - 1]) return 1;
        trips++;
    }
    std::printf("%.1f\n", trips / std::chrono::duration<double>(clock::now() - begin).count());
    orb->destroy();
    return 0;
}
