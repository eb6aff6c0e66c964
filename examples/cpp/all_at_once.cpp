/*
 * Encodes a log and decodes it with many events and many payloads at a call, into buffers that are too small for all of
 * them: what was not taken is handed in again. The version of the library is that of the header.
 *
 *     all_at_once IMAGE
 */
#include "tracebench.hpp"

#include <algorithm>
#include <cstring>
#include <fstream>
#include <iostream>
#include <iterator>
#include <string>
#include <vector>

namespace {

/* The address of the image's first byte. */
constexpr std::uint64_t BASE = 0x80000000;

/* The log of hart 1 of examples/two_harts: an uninferable jump leads back to the second instruction. */
constexpr tracebench::event LOG[] = {
    {TRACEBENCH_RETIREMENT, 0, 3, 0, 0, BASE, 0},
    {TRACEBENCH_RETIREMENT, 0, 3, 0, 0, BASE + 4, 0},
    {TRACEBENCH_RETIREMENT, 6, 3, 0, 0, BASE + 8, 0},
    {TRACEBENCH_RETIREMENT, 0, 3, 0, 0, BASE + 4, 0},
};

/* Throws where a call neither took all nor ran out of room. */
void expect_some(tracebench::status said) {
    if (said != tracebench::status::TooSmall) tracebench::expect(said);
}

/* The packets of the log. The first call has no room for one, and the others have room for two. */
std::vector<tracebench::packet> packets_of_log(const tracebench::program &program) {
    std::vector<tracebench::packet> packets(1);
    tracebench::encoder_state encoder;
    tracebench::expect(tracebench::encoder(1024, tracebench::address_mode::Differential, encoder, packets[0]));
    tracebench::packet room[2];
    std::size_t taken = 0, count = 0;
    for (std::size_t at = 0; at < std::size(LOG); at += taken) {
        const tracebench::span<const tracebench::event> rest{LOG + at, std::size(LOG) - at};
        const tracebench::span<tracebench::packet> part{room, at == 0 ? 0 : std::size(room)};
        const tracebench::status said = push_all(program, encoder, rest, part, taken, count);
        std::cout << "push: " << taken << " events, " << count << " packets, " << status_text(said) << '\n';
        expect_some(said);
        packets.insert(packets.end(), room, room + count);
    }
    tracebench::due last;
    tracebench::expect(finish(program, encoder, last));
    packets.insert(packets.end(), last.begin(), last.end());
    return packets;
}

/* Feeds the payloads of packets. The first call has room for one event, and the next one for the others. */
void feed_packets(const tracebench::program &program, const std::vector<tracebench::packet> &packets) {
    std::vector<std::uint8_t> bytes;
    std::vector<std::size_t> ends;
    for (const tracebench::packet &packet : packets) {
        tracebench::payload payload;
        tracebench::expect(pack(packet, payload));
        bytes.insert(bytes.end(), payload.begin(), payload.end());
        ends.push_back(bytes.size());
    }
    tracebench::decoder_state decoder;
    tracebench::decoder(decoder);
    tracebench::event settled[std::size(LOG)];
    std::size_t length = 0, taken = 0, count = 0;
    while (!ends.empty()) {
        const tracebench::span<tracebench::event> part{settled + length, length == 0 ? 1 : std::size(LOG) - length};
        const tracebench::status said = feed_all(program, decoder, {bytes, ends}, part, taken, count);
        std::cout << "feed: " << taken << " payloads, " << count << " events, " << status_text(said) << '\n';
        expect_some(said);
        length += count;
        if (taken == 0) break;
        const std::size_t start = ends[taken - 1];
        bytes.erase(bytes.begin(), bytes.begin() + static_cast<std::ptrdiff_t>(start));
        ends.erase(ends.begin(), ends.begin() + static_cast<std::ptrdiff_t>(taken));
        std::for_each(ends.begin(), ends.end(), [=](std::size_t &end) { end -= start; });
    }
    const bool same = length == std::size(LOG) && std::memcmp(settled, LOG, sizeof LOG) == 0;
    std::cout << "as it was: " << same << "\nphase " << decoder.phase << '\n';
}

} // namespace

int main(int count, char **words) {
    std::ifstream file(count == 2 ? words[1] : "", std::ios::binary);
    if (!file) {
        std::cerr << "usage: all_at_once IMAGE\n";
        return 2;
    }
    const std::string image{std::istreambuf_iterator<char>(file), {}};
    const tracebench::program program{BASE, tracebench::bytes_of(image)};
    std::cout << "version: " << tracebench::is_this_version() << '\n';
    try {
        feed_packets(program, packets_of_log(program));
    } catch (const tracebench::refused &why) {
        std::cerr << "all_at_once: " << why.what() << '\n';
        return 1;
    }
    return 0;
}
