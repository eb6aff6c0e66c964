/*
 * Encodes a log and decodes it step by step: each event is pushed as it comes, each packet is packed and its payload
 * fed to a decoder, and the events that come out are those that went in. It needs no exceptions.
 *
 *     step_by_step IMAGE
 */
#include "tracebench.hpp"

#include <cstring>
#include <fstream>
#include <iostream>
#include <iterator>
#include <string>
#include <vector>

namespace {

/* The address of the image's first byte. */
constexpr std::uint64_t BASE = 0x80000000;

/* The log of hart 1 of examples/two_harts: an uninferable jump leads back to the second instruction. */
constexpr tracebench::event LOG[] = {
    {TRACEBENCH_RETIREMENT, 0, 3, 0, 0, BASE, 0},
    {TRACEBENCH_RETIREMENT, 0, 3, 0, 0, BASE + 4, 0},
    {TRACEBENCH_RETIREMENT, 6, 3, 0, 0, BASE + 8, 0},
    {TRACEBENCH_RETIREMENT, 0, 3, 0, 0, BASE + 4, 0},
};

/* A decoder, and the events that it settled. */
struct receiver {
    tracebench::program program;
    tracebench::decoder_state state;
    std::vector<tracebench::event> settled;
};

/* Packs packets, and feeds their payloads. */
template <class Packets> tracebench::status feed(receiver &to, const Packets &packets) {
    tracebench::payload payload;
    tracebench::buffer<tracebench::event> events;
    for (const tracebench::packet &packet : packets) {
        tracebench::status said = pack(packet, payload);
        if (said == tracebench::status::Done) said = feed(to.program, to.state, payload, events);
        if (said != tracebench::status::Done) return said;
        to.settled.insert(to.settled.end(), events.begin(), events.end());
        std::cout << "packet of kind " << packet.kind << ": " << events.size() << " events\n";
    }
    return tracebench::status::Done;
}

tracebench::status step_by_step(receiver &to) {
    tracebench::encoder_state encoder;
    tracebench::packet opening[1];
    tracebench::due due;
    tracebench::decoder(to.state);
    tracebench::status said = tracebench::encoder(1024, tracebench::address_mode::Differential, encoder, opening[0]);
    if (said == tracebench::status::Done) said = feed(to, opening);
    for (const tracebench::event &event : LOG) {
        if (said == tracebench::status::Done) said = push(to.program, encoder, event, due);
        if (said == tracebench::status::Done) said = feed(to, due);
    }
    if (said == tracebench::status::Done) said = finish(to.program, encoder, due);
    return said == tracebench::status::Done ? feed(to, due) : said;
}

} // namespace

int main(int count, char **words) {
    std::ifstream file(count == 2 ? words[1] : "", std::ios::binary);
    if (!file) {
        std::cerr << "usage: step_by_step IMAGE\n";
        return 2;
    }
    const std::string image{std::istreambuf_iterator<char>(file), {}};
    receiver to{{BASE, tracebench::bytes_of(image)}, {}, {}};
    const tracebench::status said = step_by_step(to);
    if (said != tracebench::status::Done) {
        std::cerr << "step_by_step: " << tracebench::status_text(said) << '\n';
        return 1;
    }
    for (const tracebench::event &event : to.settled)
        std::cout << std::hex << event.address << ',' << +event.itype << ',' << +event.privilege << '\n';
    const bool same = to.settled.size() == std::size(LOG) && std::memcmp(to.settled.data(), LOG, sizeof LOG) == 0;
    std::cout << "as it was: " << same << "\nphase " << to.state.phase << '\n';
    return 0;
}
