/*
 * Makes a capture of lines, reads its header and its messages, and writes what a path made of them, message by message:
 * some are lost, late, repeated, changed or of a hart that is none, and five bytes are of no message. Prints what
 * `tracebench audit` and `tracebench audit --unnumbered` find of that path, each by one call: each struct field by
 * field and by name. A call that gives no answer ends the program by an exception.
 *
 *     paths
 */
#include "tracebench.hpp"

#include <cstdio>
#include <exception>
#include <iostream>
#include <string>
#include <string_view>
#include <vector>

namespace {

using tracebench::bytes_of;
using tracebench::compared;
using tracebench::expect;

using bytes_seen = tracebench::span<const std::uint8_t>;

constexpr std::size_t HEADER = 16;

/* A message that came: its hart, its number and the payload. */
struct came {
    std::uint16_t hart;
    std::uint64_t number;
    std::string_view payload;
};

/* What was sent: messages of one byte, of two harts. */
constexpr std::string_view LINES =
    "0 61\n1 41\n0 62\n1 42\n0 63\n1 43\n0 64\n0 65\n0 66\n0 67\n0 68\n0 69\n0 6a\n0 6b\n0 6c\n";

/* What came of it: up to five bytes of no message, and after them. */
constexpr came FIRST_CAME[] = {
    {0, 0, "a"}, {1, 0, "A"}, {0, 1, "b"}, {1, 1, "B"}, {0, 3, "d"},
    {0, 7, "h"}, {0, 2, "c"}, {2, 0, "a"}, {0, 0, "a"}, {1, 1, "B"},
};
constexpr came THEN_CAME[] = {
    {0, 8, "i"}, {0, 9, "x"}, {0, 10, "k"}, {0, 10, "k"}, {1, 1, "B"}, {0, 11, "l"}, {1, 2, "x"}, {2, 1, "a"},
};

std::ostream &operator<<(std::ostream &out, const tracebench::header &it) {
    return out << "Header { mode: " << it.mode << ", period: " << it.period << ", harts: " << it.harts << " }";
}

std::ostream &operator<<(std::ostream &out, const tracebench::message &it) {
    out << "Message { number: " << it.number << ", payload_length: " << it.payload_length << ", hart: " << it.hart
        << ", payload: ";
    for (const std::uint8_t byte : tracebench::payload_of(it)) {
        char digits[3];
        std::snprintf(digits, sizeof digits, "%02x", byte);
        out << digits;
    }
    return out << " }";
}

std::ostream &operator<<(std::ostream &out, const tracebench::tally &it) {
    return out << "Tally { sent: " << it.sent << ", came: " << it.came << ", lost: " << it.lost
               << ", repeated: " << it.repeated << ", late: " << it.late << ", changed: " << it.changed
               << ", whole: " << it.whole << " }";
}

std::ostream &operator<<(std::ostream &out, const tracebench::hart_row &it) {
    return out << "HartRow { tally: " << it.tally << ", strange: " << it.strange << ", extra: " << it.extra
               << ", runs: " << it.runs << ", longest: " << it.longest << ", latest: " << it.latest
               << ", exchanged: " << it.exchanged << ", exchanged_hart: " << it.exchanged_hart << " }";
}

std::ostream &operator<<(std::ostream &out, const tracebench::arrival &it) {
    return out << "Arrival { number: " << it.number << ", by: " << it.by << ", offset: " << it.offset
               << ", fate: " << it.fate << ", hart: " << it.hart << " }";
}

std::ostream &operator<<(std::ostream &out, const tracebench::lost_run &it) {
    return out << "LostRun { first: " << it.first << ", last: " << it.last << ", hart: " << it.hart << " }";
}

std::ostream &operator<<(std::ostream &out, const tracebench::byte_run &it) {
    return out << "ByteRun { offset: " << it.offset << ", count: " << it.count << " }";
}

std::ostream &operator<<(std::ostream &out, const tracebench::sent_place &it) {
    return out << "SentPlace { message: " << it.message << ", expected: " << it.expected << " }";
}

std::ostream &operator<<(std::ostream &out, const tracebench::path_end &it) {
    return out << "PathEnd { harts: " << it.harts << ", messages: " << it.messages << ", lost_runs: " << it.lost_runs
               << ", byte_runs: " << it.byte_runs << ", bytes: " << it.bytes << ", strangers: " << it.strangers
               << ", first: " << it.first << ", sent_header: " << it.sent_header
               << ", received_header: " << it.received_header << ", has_sent_header: " << it.has_sent_header
               << ", has_received_header: " << it.has_received_header << ", header_fault: " << it.header_fault
               << ", headers_differ: " << it.headers_differ << ", has_first: " << it.has_first
               << ", whole: " << it.whole << " }";
}

template <class Items> void print_each(const Items &items) {
    for (const auto &item : items) std::cout << item << '\n';
}

/* Prints the header and each message of a capture. */
void read_capture(bytes_seen capture) {
    tracebench::header header;
    tracebench::message message;
    std::size_t taken = 0;
    expect(tracebench::read_header(capture, header, taken));
    std::cout << header << '\n';
    for (std::size_t at = taken; at < capture.size(); at += taken) {
        expect(tracebench::read_message({capture.data() + at, capture.size() - at}, message, taken));
        std::cout << message << '\n';
    }
}

template <class Bytes> void add(std::vector<std::uint8_t> &capture, const Bytes &bytes) {
    capture.insert(capture.end(), bytes.begin(), bytes.end());
}

void add_messages(std::vector<std::uint8_t> &capture, tracebench::span<const came> messages) {
    tracebench::message_bytes written;
    for (const came &it : messages) {
        expect(tracebench::write_message(it.hart, it.number, bytes_of(it.payload), written));
        add(capture, written);
    }
}

/* What came, after a header of its own. */
std::vector<std::uint8_t> received() {
    std::vector<std::uint8_t> capture;
    tracebench::header_bytes header;
    expect(tracebench::write_header({TRACEBENCH_DIFFERENTIAL, 7, 3}, header));
    add(capture, header);
    add_messages(capture, FIRST_CAME);
    capture.insert(capture.end(), 5, 0xee);
    add_messages(capture, THEN_CAME);
    return capture;
}

/* Audits a path, by numbers and by payloads alone. Prints all that is found, or the ends. */
void audit(bytes_seen sent, bytes_seen came, bool all) {
    tracebench::sent_place refused;
    for (const compared how : {compared::ByBytes, compared::UnnumberedByBytes}) {
        tracebench::audited_path found;
        expect(tracebench::audit_all(sent, came, how, found, refused));
        if (all) {
            print_each(found.rows);
            print_each(found.arrivals);
            print_each(found.lost);
            print_each(found.runs);
        }
        std::cout << found.ended << '\n';
    }
}

/* A second line with a number and no bytes. */
void refused_line() {
    tracebench::bytes capture;
    std::uint64_t line = 0;
    const tracebench::settings how{5, tracebench::address_mode::Full, tracebench::capture_version::Two};
    const tracebench::status said = tracebench::capture_of_lines(bytes_of("0 61\n0 1 62\n"), how, 0, capture, line);
    std::cout << "line " << line << ": status " << static_cast<std::uint32_t>(said) << '\n';
}

/* The last message of SENT is not the next of its hart. */
void refused_sent() {
    constexpr came MESSAGES[] = {{0, 0, "a"}, {1, 0, "A"}, {0, 1, "b"}, {1, 3, "D"}};
    std::vector<std::uint8_t> sent;
    add_messages(sent, MESSAGES);
    tracebench::audited_path found;
    tracebench::sent_place refused{};
    const tracebench::status said = tracebench::audit_all(sent, sent, compared::ByBytes, found, refused);
    if (said == tracebench::status::Gap) std::cout << refused << '\n';
}

void paths() {
    tracebench::bytes capture;
    std::uint64_t line = 0;
    const tracebench::settings how{5, tracebench::address_mode::Full, tracebench::capture_version::Two};
    expect(tracebench::capture_of_lines(bytes_of(LINES), how, 0, capture, line));
    const bytes_seen sent = capture;
    read_capture(sent);
    refused_line();
    const std::vector<std::uint8_t> came = received();
    const bytes_seen all_came = came;
    audit(sent, all_came, true);
    /* RECEIVED has no header; SENT has none, and the period of RECEIVED's is 0; and all came. */
    audit(sent, {all_came.data() + HEADER, all_came.size() - HEADER}, false);
    std::vector<std::uint8_t> bad(sent.begin(), sent.begin() + HEADER);
    bad[12] = bad[13] = 0;
    audit({sent.data() + HEADER, sent.size() - HEADER}, bad, false);
    audit(sent, sent, false);
    refused_sent();
}

} // namespace

int main() {
    try {
        paths();
    } catch (const std::exception &why) {
        std::cerr << "paths: " << why.what() << '\n';
        return 1;
    }
    return 0;
}
