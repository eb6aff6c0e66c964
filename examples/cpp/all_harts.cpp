/*
 * Encodes the logs of two harts, and prints what `tracebench decode`, `list`, `measure` and `compare` print of them,
 * each by one call, and then why a log is illegal. A call that gives no answer ends the program by an exception.
 *
 *     all_harts IMAGE LOG LOG
 */
#include "tracebench.hpp"

#include <fstream>
#include <ios>
#include <iostream>
#include <iterator>
#include <string>
#include <string_view>

namespace {

/* The address of the image's first byte. */
constexpr std::uint64_t BASE = 0x80000000;

/* What `nm` prints of the program. */
constexpr std::string_view SYMBOLS = "0000000080000000 T start\n000000008000000c t loop\n";

/* A log that begins outside of the image. */
constexpr std::string_view OUTSIDE = "addr,itype,priv,cause,tval\n70000000,0,3,,\n";

using tracebench::bytes_of;
using tracebench::expect;
using tracebench::text_of;

using bytes_seen = tracebench::span<const std::uint8_t>;

std::string content(const char *path) {
    std::ifstream file(path, std::ios::binary);
    if (!file) throw std::ios_base::failure(path);
    return {std::istreambuf_iterator<char>(file), {}};
}

/* Prints the log of each hart. One call decodes all of them. */
void decode(const tracebench::program &program, bytes_seen capture) {
    tracebench::bytes logs;
    tracebench::buffer<tracebench::hart_end> ends;
    tracebench::decode_all_end ended;
    expect(decode_all(program, 1, capture, logs, ends, ended));
    std::size_t start = 0, hart = 0;
    for (const tracebench::hart_end &end : ends) {
        std::cout << "hart " << hart << '\n' << text_of(logs).substr(start, end.end - start);
        if (end.closed == 0) std::cout << "hart " << hart << ": no closing packet\n";
        start = end.end;
        hart++;
    }
}

void all_harts(char **paths) {
    const std::string image = content(paths[0]);
    const std::string first = content(paths[1]);
    const std::string texts = first + content(paths[2]);
    const std::size_t ends[] = {first.size(), texts.size()};
    const tracebench::program program{BASE, bytes_of(image)};
    const tracebench::logs logs{bytes_of(texts), ends};
    tracebench::bytes capture, text;
    tracebench::log_place place;
    tracebench::text_end ended;
    expect(encode(program, logs, {}, capture, place));
    decode(program, capture);
    expect(list(program, 1, capture, bytes_of(SYMBOLS), tracebench::text_format::Lines, text, ended));
    std::cout << text_of(text);
    expect(measure(program, logs, {}, text, place));
    std::cout << text_of(text);
    expect(compare(program, 1, capture, logs, text, ended, place));
    std::cout << text_of(text);
    tracebench::explain_end explained;
    expect(explain(program, bytes_of(OUTSIDE), text, explained));
    std::cout << "row " << explained.row << ": " << tracebench_status_text(explained.fault) << '\n' << text_of(text);
}

} // namespace

int main(int count, char **words) {
    if (count != 4) {
        std::cerr << "usage: all_harts IMAGE LOG LOG\n";
        return 2;
    }
    try {
        all_harts(words + 1);
    } catch (const std::exception &why) {
        std::cerr << "all_harts: " << why.what() << '\n';
        return 1;
    }
    return 0;
}
