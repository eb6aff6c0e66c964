/*
 * Encodes the logs of two harts, dumps and decodes the capture, loses a message of it, and audits and decodes what
 * came. A call that gives no answer ends the program by an exception.
 *
 *     round_trip IMAGE LOG LOG
 */
#include "tracebench.hpp"

#include <algorithm>
#include <cstdio>
#include <fstream>
#include <ios>
#include <iostream>
#include <iterator>
#include <string>
#include <vector>

namespace {

/* The address of the image's first byte. */
constexpr std::uint64_t BASE = 0x80000000;

using tracebench::expect;

using bytes_seen = tracebench::span<const std::uint8_t>;

std::string content(const char *path) {
    std::ifstream file(path, std::ios::binary);
    if (!file) throw std::ios_base::failure(path);
    return {std::istreambuf_iterator<char>(file), {}};
}

void dump(bytes_seen capture) {
    tracebench::bytes text;
    tracebench::dump_end ended;
    expect(tracebench::dump(capture, text, ended));
    std::cout << tracebench::text_of(text) << "bad " << ended.bad << ", ends at message " << ended.place
              << " with status " << ended.fault << '\n';
}

/* Prints the log of each hart of a capture, and how decoding ended. */
void decode(const tracebench::program &program, bytes_seen capture) {
    tracebench::bytes logs;
    tracebench::buffer<tracebench::hart_end> ends;
    tracebench::decode_all_end ended;
    expect(decode_all(program, 2, capture, logs, ends, ended));
    std::size_t start = 0;
    for (std::size_t hart = 0; hart < ends.size(); start = ends[hart++].end)
        std::cout << "hart " << hart << " of " << ended.harts << ": closed " << ends[hart].closed
                  << ", ends at message " << ended.place << " with status " << ended.fault << '\n'
                  << tracebench::text_of({logs.data() + start, ends[hart].end - start});
}

/* Prints what became of the messages of each hart. */
void audit(bytes_seen sent, bytes_seen received) {
    tracebench::audited_path found;
    tracebench::sent_place refused;
    expect(audit_all(sent, received, tracebench::compared::ByBytes, found, refused));
    for (std::size_t hart = 0; hart < found.rows.size(); hart++) {
        const tracebench::tally &tally = found.rows[hart].tally;
        std::cout << "hart " << hart << " of " << found.ended.harts << ": " << tally.sent << " sent, " << tally.came
                  << " came, " << tally.lost << " lost, whole " << tally.whole << ", strangers "
                  << found.ended.strangers << '\n';
    }
}

/* A capture with a header of 16 bytes, without its second message. A message has 11 bytes before its payload, the last
 * of which is the payload's length. */
std::vector<std::uint8_t> without_second(bytes_seen capture) {
    const std::size_t second = 16 + 11 + capture[16 + 10];
    const std::size_t third = second + 11 + capture[second + 10];
    std::vector<std::uint8_t> left(capture.data(), capture.data() + second);
    left.insert(left.end(), capture.data() + third, capture.data() + capture.size());
    return left;
}

void round_trip(char **paths) {
    const std::string image = content(paths[0]);
    const std::string first = content(paths[1]);
    const std::string texts = first + content(paths[2]);
    const tracebench::program program{BASE, tracebench::bytes_of(image)};
    std::uint64_t row = 0;
    const tracebench::status checked = tracebench::check(program, tracebench::bytes_of(first), row);
    std::cout << "check: status " << static_cast<std::uint32_t>(checked) << ", row " << row << '\n';
    const std::size_t ends[] = {first.size(), texts.size()};
    tracebench::bytes capture;
    tracebench::log_place place;
    expect(tracebench::encode(program, {tracebench::bytes_of(texts), ends}, {}, capture, place));
    std::cout << "capture of " << capture.size() << " bytes\n";
    dump(capture);
    decode(program, capture);
    const std::vector<std::uint8_t> received = without_second(capture);
    std::cout << "without the second message\n";
    audit(capture, received);
    decode(program, received);
    tracebench::packet packet{};
    packet.kind = TRACEBENCH_SYNC;
    packet.privilege = 3;
    packet.address = BASE;
    tracebench::payload payload;
    expect(pack(packet, payload));
    std::cout << "pack: status 0, " << payload.size() << " bytes\n";
    expect(tracebench::unpack(payload, packet));
    std::cout << "unpack: status 0, address " << std::hex << packet.address << '\n';
}

} // namespace

int main(int count, char **words) {
    if (count != 4) {
        std::cerr << "usage: round_trip IMAGE LOG LOG\n";
        return 2;
    }
    try {
        round_trip(words + 1);
    } catch (const std::exception &why) {
        std::cerr << "round_trip: " << why.what() << '\n';
        return 1;
    }
    return 0;
}
