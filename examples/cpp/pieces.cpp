/*
 * Encodes and decodes a log step by step, of a program that jumps from a boot ROM to RAM: an image in two pieces. Then
 * it says that the log is not one of the ROM alone.
 */
#include "tracebench.hpp"

#include <array>
#include <cstdio>
#include <cstring>
#include <exception>
#include <vector>

namespace {

constexpr std::uint64_t Rom = 0x1000;
constexpr std::uint64_t Ram = 0x80000000;

/* nop; jalr x0, 0(x1), and nop */
constexpr std::array<std::uint8_t, 8> rom{0x13, 0x00, 0x00, 0x00, 0x67, 0x80, 0x00, 0x00};
constexpr std::array<std::uint8_t, 4> ram{0x13, 0x00, 0x00, 0x00};

constexpr std::array<tracebench::event, 3> events{{
    {TRACEBENCH_RETIREMENT, 0, 3, 0, 0, Rom, 0},
    {TRACEBENCH_RETIREMENT, 6, 3, 0, 0, Rom + 4, 0},
    {TRACEBENCH_RETIREMENT, 0, 3, 0, 0, Ram, 0},
}};

void run() {
    const std::array<tracebench::piece, 2> pieces{tracebench::piece_of(Rom, rom), tracebench::piece_of(Ram, ram)};
    const tracebench::program program{pieces};
    std::vector<tracebench::event> settled;
    tracebench::decoder_state decoder;
    tracebench::decoder(decoder);
    const auto feed_packet = [&](const tracebench::packet &packet) {
        tracebench::payload payload;
        tracebench::buffer<tracebench::event> given;
        tracebench::expect(pack(packet, payload));
        tracebench::expect(feed(program, decoder, {payload.data(), payload.size()}, given));
        settled.insert(settled.end(), given.begin(), given.end());
        std::printf("packet of kind %u: %zu events\n", packet.kind, given.size());
    };
    tracebench::encoder_state encoder;
    tracebench::packet opening;
    tracebench::expect(tracebench::encoder(1024, tracebench::address_mode::Differential, encoder, opening));
    feed_packet(opening);
    tracebench::due packets;
    for (const tracebench::event &event : events) {
        tracebench::expect(push_checked(program, encoder, event, packets));
        for (const tracebench::packet &packet : packets) feed_packet(packet);
    }
    tracebench::expect(finish(program, encoder, packets));
    for (const tracebench::packet &packet : packets) feed_packet(packet);
    for (const tracebench::event &event : settled)
        std::printf("%llx,%u,%u\n", static_cast<unsigned long long>(event.address), event.itype, event.privilege);
    const bool as_it_was = settled.size() == 3 && std::memcmp(settled.data(), events.data(), sizeof events) == 0;
    std::printf("as it was: %d\n", as_it_was);
    std::uint64_t row = 0;
    const tracebench::program alone{Rom, rom};
    const tracebench::status said = check(alone, tracebench::span<const tracebench::event>(events), row);
    std::printf("the ROM alone: row %llu: %s\n", static_cast<unsigned long long>(row), status_text(said));
}

} // namespace

int main() {
    try {
        run();
        return 0;
    } catch (const std::exception &why) {
        std::fprintf(stderr, "pieces: %s\n", why.what());
        return 1;
    }
}
