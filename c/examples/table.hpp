// A table that frees itself. Each call returns a number of idlc.h.
#pragma once
#include <idlc.h>

#include <string>
#include <string_view>
#include <utility>
#include <vector>

class Table {
public:
    using Octets = std::vector<uint8_t>;

    Table() = default;
    ~Table() { idlc_free(&table); }
    Table(Table &&other) noexcept : table(std::exchange(other.table, {})) {}
    Table &operator=(Table &&other) noexcept { std::swap(table, other.table); return *this; }

    uint32_t load(const Octets &file, idlc_refusal &refusal) { return idlc_load(&table, at(file), file.size(), &refusal); }
    uint32_t compile(std::string_view idl, idlc_place &place) { return idlc_compile(&table, at(idl), idl.size(), &place); }
    uint32_t share(Table &other) { return idlc_share(&table, &other.table); }
    uint32_t find(std::string_view name, uint32_t &node) { return idlc_find(&table, at(name), name.size(), &node); }

    uint32_t encode(uint32_t node, const Octets &tape, Octets &out, bool little = false, uint64_t pos = 0)
    {
        return handed(out, [&](uint8_t *to, size_t room, size_t *len) {
            return idlc_encode(&table, node, little, pos, at(tape), tape.size(), to, room, len);
        });
    }

    uint32_t decode(uint32_t node, const Octets &octets, size_t &taken, Octets &tape, bool little = false, uint64_t pos = 0)
    {
        return handed(tape, [&](uint8_t *to, size_t room, size_t *len) {
            return idlc_decode(&table, node, little, pos, at(octets), octets.size(), &taken, to, room, len);
        });
    }

    uint32_t encode_text(uint32_t node, std::string_view text, Octets &out, idlc_place &place, bool little = false, uint64_t pos = 0)
    {
        return handed(out, [&](uint8_t *to, size_t room, size_t *len) {
            return idlc_encode_text(&table, node, little, pos, at(text), text.size(), to, room, len, &place);
        });
    }

    uint32_t decode_text(uint32_t node, const Octets &octets, size_t &taken, std::string &text, bool little = false, uint64_t pos = 0)
    {
        return handed(text, [&](uint8_t *to, size_t room, size_t *len) {
            return idlc_decode_text(&table, node, little, pos, at(octets), octets.size(), &taken, to, room, len);
        });
    }

private:
    template <class List> static uint8_t *at(List &octets)
    {
        static uint8_t none;
        return octets.empty() ? &none : (uint8_t *)octets.data();
    }

    // Asks for the length first.
    template <class List, class Call> static uint32_t handed(List &out, Call call)
    {
        size_t len = 0;
        out.clear();
        uint32_t number = call(at(out), 0, &len);
        if (number != IDLC_NO_ROOM)
            return number;
        out.resize(len);
        return call(at(out), len, &len);
    }

    idlc_table table{};
};
