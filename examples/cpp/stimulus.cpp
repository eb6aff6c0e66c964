// As examples/c/stimulus.c, over tracebench.hpp.
#include "tracebench.hpp"

#include <array>
#include <cstdint>
#include <cstdio>
#include <exception>
#include <vector>

namespace {

// What is kept of a hart that sends.
struct sender {
    tracebench::walk_state walk;
    tracebench::encoder_state encoder{};
    std::uint64_t number = 0;

    template <class Packets> void send(const Packets &packets) {
        for (const tracebench::packet &packet : packets) {
            tracebench::payload payload;
            tracebench::expect(tracebench::pack(packet, payload));
            std::printf("%u %llu ", walk.hart, static_cast<unsigned long long>(number++));
            for (const std::uint8_t byte : payload) std::printf("%02x", byte);
            std::putchar('\n');
        }
    }
};

void run() {
    tracebench::bytes image;
    tracebench::expect(tracebench::generate_image(tracebench::mix::Mixed, 1, image));
    const tracebench::program program{0x80000000, image};
    std::vector<sender> harts;
    for (std::uint16_t hart = 0; hart < 3; hart++) {
        std::array<tracebench::packet, 1> opening{};
        harts.push_back({tracebench::walk(tracebench::mix::Mixed, 1, hart)});
        tracebench::expect(tracebench::encoder(64, tracebench::address_mode::Differential, harts.back().encoder,
                                               opening[0]));
        harts.back().send(opening);
    }
    std::array<tracebench::event, 8> events{};
    tracebench::buffer<tracebench::packet> packets;
    for (int turn = 0; turn < 4; turn++) {
        for (sender &hart : harts) {
            std::size_t taken = 0;
            tracebench::expect(tracebench::generate_events(program, hart.walk, events));
            tracebench::expect(tracebench::push_all(program, hart.encoder, events, packets, taken));
            hart.send(packets);
        }
    }
    for (sender &hart : harts) {
        tracebench::due left;
        tracebench::expect(tracebench::finish(program, hart.encoder, left));
        hart.send(left);
    }
}

} // namespace

int main() {
    try {
        run();
    } catch (const std::exception &why) {
        std::fprintf(stderr, "stimulus: %s\n", why.what());
        return 1;
    }
    return 0;
}
