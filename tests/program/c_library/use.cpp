// Encodes and decodes by the class of c/examples/table.hpp: use FILE NAME
#include "table.hpp"

#include <cstdio>
#include <fstream>
#include <iterator>

static const char idl[] = "struct S { octet a; unsigned long b; string c; };";

int main(int argc, char **argv)
{
    std::ifstream from(argc == 3 ? argv[1] : "", std::ios::binary);
    Table::Octets file((std::istreambuf_iterator<char>(from)), {}), out, again;
    Table first, table;
    idlc_refusal refusal;
    idlc_place place;
    std::string text;
    uint32_t node = 0;
    size_t taken = 0;
    if (first.load(file, refusal) != IDLC_DONE)
        return 1;
    table = std::move(first);
    if (table.find(argv[2], node) != IDLC_DONE || first.find(argv[2], node) != IDLC_NO_TABLE)
        return 1;
    if (table.encode(node, {7, 0, 0, 0, 1, 0, 0, 0, 2, 'h', 'i'}, out) != IDLC_DONE)
        return 1;
    for (uint8_t octet : out)
        std::printf("%02x", octet);
    if (table.compile(idl, place) != IDLC_DONE || table.find(argv[2], node) != IDLC_DONE)
        return 1;
    if (table.decode_text(node, out, taken, text) != IDLC_DONE)
        return 1;
    std::printf("\n%zu %s\n", taken, text.c_str());
    if (table.encode_text(node, text, again, place) != IDLC_DONE || again != out)
        return 1;
    return table.encode(node, {}, out) == IDLC_SHORT && out.empty() ? 0 : 1;
}
