// Times of idlc_encode and idlc_decode beside those of omniORB's stubs over cdrMemoryStream, on the same values: prints a
// Markdown table. Each side keeps its buffer from call to call, as a broker does. omniORB turns a C++ value into octets
// and back; the library a tape. Octets and tapes are compared before anything is measured.
#include "values.hh"

#include "idlc.h"

#include <algorithm>
#include <cstdio>
#include <cstdlib>
#include <cstring>
#include <ctime>
#include <fstream>
#include <iterator>
#include <string>
#include <vector>

namespace {

using Octets = std::vector<uint8_t>;

// A batch takes at least so many nanoseconds; the quickest of so many counts.
constexpr double BATCH = 20e6;
constexpr int BATCHES = 45;

idlc_table table;

[[noreturn]] void stop(const char *what) {
    std::fprintf(stderr, "%s\n", what);
    std::exit(1);
}

double now() {
    timespec at;
    clock_gettime(CLOCK_THREAD_CPUTIME_ID, &at);
    return 1e9 * double(at.tv_sec) + double(at.tv_nsec);
}

template <typename Call> double batch(long calls, const Call &call) {
    double start = now();
    for (long n = 0; n < calls; n++)
        call();
    return now() - start;
}

// Nanoseconds of a call by each side.
struct Pair {
    double ours, theirs;
};

template <typename Call> long calls_of_batch(const Call &call) {
    long calls = 1;
    while (batch(calls, call) < BATCH)
        calls *= 2;
    return calls;
}

// The sides take turns, so that a machine that is slower for a while is so for both.
template <typename Ours, typename Theirs> Pair times_of(const Ours &ours, const Theirs &theirs) {
    long calls = calls_of_batch(ours), calls_there = calls_of_batch(theirs);
    Pair best{batch(calls, ours), batch(calls_there, theirs)};
    for (int n = 1; n < BATCHES; n++) {
        best.ours = std::min(best.ours, batch(calls, ours));
        best.theirs = std::min(best.theirs, batch(calls_there, theirs));
    }
    return {best.ours / double(calls), best.theirs / double(calls_there)};
}

uint32_t node_of(const std::string &name) {
    uint32_t node;
    if (idlc_find(&table, reinterpret_cast<const uint8_t *>(name.data()), name.size(), &node) != IDLC_DONE)
        stop(name.c_str());
    return node;
}

Octets written_by_omniorb(cdrMemoryStream &stream) {
    const uint8_t *start = static_cast<const uint8_t *>(stream.bufPtr());
    return Octets(start, start + stream.bufSize());
}

// The tape of the octets, which have to be those of the tape.
Octets tape_of(uint32_t node, bool little, const Octets &octets) {
    size_t taken = 0, len = 0;
    uint8_t none;
    idlc_decode(&table, node, little, 0, octets.data(), octets.size(), &taken, &none, 0, &len);
    Octets tape(len + 1);
    if (idlc_decode(&table, node, little, 0, octets.data(), octets.size(), &taken, tape.data(), len, &len) != IDLC_DONE)
        stop("omniORB's octets aren't read");
    tape.resize(len);
    Octets again(octets.size() + 1);
    if (taken != octets.size() ||
        idlc_encode(&table, node, little, 0, tape.data(), len, again.data(), octets.size(), &len) != IDLC_DONE ||
        len != octets.size() || std::memcmp(again.data(), octets.data(), len) != 0)
        stop("the octets differ");
    return tape;
}

// A row for one value, as both sides write and read it.
template <typename T> void row(const char *name, const char *type, size_t count, const T &value, bool little) {
    // its gaps are zeros, as ours are
    cdrMemoryStream stream(CORBA::ULong(0), true);
    stream.setByteSwapFlag(little);
    value >>= stream;
    Octets octets = written_by_omniorb(stream);
    uint32_t node = node_of(std::string("Values::") + type);
    Octets tape = tape_of(node, little, octets), out(octets.size() + tape.size());
    size_t taken, len;
    auto write = [&] {
        idlc_encode(&table, node, little, 0, tape.data(), tape.size(), out.data(), out.size(), &len);
    };
    auto write_there = [&] {
        stream.rewindPtrs();
        value >>= stream;
    };
    auto read = [&] {
        idlc_decode(&table, node, little, 0, octets.data(), octets.size(), &taken, out.data(), out.size(), &len);
    };
    auto read_there = [&] {
        stream.rewindInputPtr();
        T other;
        other <<= stream;
    };
    Pair written = times_of(write, write_there), told = times_of(read, read_there);
    double n = double(count);
    std::printf("| %s | %zu | %s | %.3g, %.3g | %.2f | %.3g, %.3g | %.2f |\n", name, count, little ? "little" : "big",
                written.ours / n, written.theirs / n, written.ours / written.theirs, told.ours / n, told.theirs / n,
                told.ours / told.theirs);
    std::fflush(stdout);
}

template <typename T> void rows(const char *name, const char *type, size_t count, const T &value) {
    row(name, type, count, value, false);
    row(name, type, count, value, true);
}

Values::S structure(uint32_t n) {
    Values::S s;
    s.a = CORBA::Octet(n);
    s.b = n;
    s.c = CORBA::string_dup("ab");
    return s;
}

Values::Six six(uint32_t n) {
    Values::Six s;
    s.a = CORBA::Octet(n);
    s.b = n;
    s.c = CORBA::string_dup("ab");
    s.d = n;
    s.e = n % 2 == 0;
    s.f = Values::blue;
    return s;
}

Values::Mixed mixed(uint32_t n) {
    Values::Mixed s;
    s.a = n % 2 == 0;
    s.b = 'x';
    s.c = CORBA::Octet(n);
    s.d = CORBA::Short(n);
    s.e = CORBA::UShort(n);
    s.f = CORBA::Long(n);
    s.g = n;
    s.h = n;
    s.i = n;
    s.j = CORBA::string_dup("eight oc");
    s.k = Values::green;
    return s;
}

// A tree with ten children in each node above the leaves, and its number of nodes.
Values::Node tree(int levels, size_t &nodes) {
    Values::Node top;
    top.a = CORBA::Octet(levels);
    nodes++;
    if (levels > 0) {
        top.children.length(10);
        for (CORBA::ULong n = 0; n < 10; n++)
            top.children[n] = tree(levels - 1, nodes);
    }
    return top;
}

template <typename List, typename Make> List many(CORBA::ULong count, const Make &make) {
    List list;
    list.length(count);
    for (CORBA::ULong n = 0; n < count; n++)
        list[n] = make(n);
    return list;
}

void all_rows() {
    row("a structure of three", "S", 1, structure(7), false);
    row("a structure of six", "Six", 1, six(7), false);
    rows("structures of three", "Ss", 10000, many<Values::Ss>(10000, structure));
    rows("structures of six", "Sixes", 10000, many<Values::Sixes>(10000, six));
    rows("structures of eleven", "Mixeds", 10000, many<Values::Mixeds>(10000, mixed));
    size_t nodes = 0;
    Values::Node top = tree(3, nodes);
    rows("nodes of a tree", "Node", nodes, top);
    auto word = [](CORBA::ULong n) { return n; };
    rows("longs", "Longs", 100000, many<Values::Longs>(100000, word));
    auto octet = [](CORBA::ULong n) { return CORBA::Octet(n); };
    row("octets", "Octets", 100000, many<Values::Octets>(100000, octet), false);
    auto text = [](CORBA::ULong) { return CORBA::string_dup("eight oc"); };
    rows("strings of eight", "Texts", 10000, many<Values::Texts>(10000, text));
}

} // namespace

int main(int argc, char **argv) {
    CORBA::ORB_var orb = CORBA::ORB_init(argc, argv, "omniORB4");
    std::ifstream file(argc > 1 ? argv[1] : "values.idl", std::ios::binary);
    std::string idl((std::istreambuf_iterator<char>(file)), std::istreambuf_iterator<char>());
    idlc_place place;
    if (idlc_compile(&table, reinterpret_cast<const uint8_t *>(idl.data()), idl.size(), &place) != IDLC_DONE)
        stop("the IDL is refused");
    std::puts("| values | how many | order | write, ns a value: ours, omniORB's | ratio | read: ours, omniORB's | ratio |");
    std::puts("|---|---:|---|---:|---:|---:|---:|");
    all_rows();
    idlc_free(&table);
    orb->destroy();
    return 0;
}
