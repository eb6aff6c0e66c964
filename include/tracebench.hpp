/*
 * The calls of tracebench.h for C++17 and later, with spans in place of pointers and lengths, statuses as an enum, and
 * buffers that own their memory. What a call promises, tracebench.h says of the one with the prefix `tracebench_`:
 *
 *     const tracebench::program program{0x80000000, image};
 *     tracebench::due packets;
 *     tracebench::payload payload;
 *     tracebench::buffer<tracebench::event> events;
 *     for (const tracebench::event &event : log) {
 *         tracebench::expect(push(program, encoder, event, packets));
 *         for (const tracebench::packet &packet : packets) {
 *             tracebench::expect(pack(packet, payload));
 *             tracebench::expect(feed(program, decoder, payload, events));
 *         }
 *     }
 *
 * - The structs are those of C. A call copies nothing that the call of C does not copy. A span may be empty and null.
 * - No call throws, and a buffer whose allocation fails gives status::Memory. Only `expect` throws, where it is called.
 * - A span is std::span from C++20 on, and before a small type of the same use. Programs of both kinds may be linked.
 */
#ifndef TRACEBENCH_HPP
#define TRACEBENCH_HPP

#include "tracebench.h"

#include <array>
#include <cstddef>
#include <cstdint>
#include <exception>
#include <iterator>
#include <limits>
#include <memory>
#include <new>
#include <string_view>
#include <type_traits>
#include <utility>

#if __cplusplus >= 202002L
#include <span>
#define TRACEBENCH_SPANS with_std_spans
#else
#define TRACEBENCH_SPANS with_own_spans
#endif

namespace tracebench {
inline namespace TRACEBENCH_SPANS {

/* How a call ends, and why a capture stops. */
enum class [[nodiscard]] status : std::uint32_t {
    Done = TRACEBENCH_DONE,
    TooSmall = TRACEBENCH_TOO_SMALL,
    Memory = TRACEBENCH_MEMORY,
    OutOfRange = TRACEBENCH_OUT_OF_RANGE,
    BadEnds = TRACEBENCH_BAD_ENDS,
    Short = TRACEBENCH_SHORT,
    BadLength = TRACEBENCH_BAD_LENGTH,
    BadHeader = TRACEBENCH_BAD_HEADER,
    Empty = TRACEBENCH_EMPTY,
    TooLong = TRACEBENCH_TOO_LONG,
    BadPad = TRACEBENCH_BAD_PAD,
    Unsupported = TRACEBENCH_UNSUPPORTED,
    BadPrivilege = TRACEBENCH_BAD_PRIVILEGE,
    BadReport = TRACEBENCH_BAD_REPORT,
    NoPacket = TRACEBENCH_NO_PACKET,
    OddBase = TRACEBENCH_ODD_BASE,
    TooLarge = TRACEBENCH_TOO_LARGE,
    PastEnd = TRACEBENCH_PAST_END,
    Overlap = TRACEBENCH_OVERLAP,
    TooMuch = TRACEBENCH_TOO_MUCH,
    TooManyPieces = TRACEBENCH_TOO_MANY_PIECES,
    NotSorted = TRACEBENCH_NOT_SORTED,
    WrongHeader = TRACEBENCH_WRONG_HEADER,
    WrongFields = TRACEBENCH_WRONG_FIELDS,
    NoNumber = TRACEBENCH_NO_NUMBER,
    OddAddress = TRACEBENCH_ODD_ADDRESS,
    WrongRowType = TRACEBENCH_WRONG_ROW_TYPE,
    WrongRowPrivilege = TRACEBENCH_WRONG_ROW_PRIVILEGE,
    LargeCause = TRACEBENCH_LARGE_CAUSE,
    WrongTrapFields = TRACEBENCH_WRONG_TRAP_FIELDS,
    ValuedInterrupt = TRACEBENCH_VALUED_INTERRUPT,
    TooManyRows = TRACEBENCH_TOO_MANY_ROWS,
    OffProgram = TRACEBENCH_OFF_PROGRAM,
    NotRetirable = TRACEBENCH_NOT_RETIRABLE,
    WrongType = TRACEBENCH_WRONG_TYPE,
    WrongNext = TRACEBENCH_WRONG_NEXT,
    WrongPrivilege = TRACEBENCH_WRONG_PRIVILEGE,
    WrongEpc = TRACEBENCH_WRONG_EPC,
    Stranger = TRACEBENCH_STRANGER,
    Repeat = TRACEBENCH_REPEAT,
    Gap = TRACEBENCH_GAP,
    AfterClose = TRACEBENCH_AFTER_CLOSE,
    OtherMode = TRACEBENCH_OTHER_MODE,
    NotOpened = TRACEBENCH_NOT_OPENED,
    WalksOffProgram = TRACEBENCH_WALKS_OFF_PROGRAM,
    MissedNotify = TRACEBENCH_MISSED_NOTIFY,
    WrongBranches = TRACEBENCH_WRONG_BRANCHES,
    WrongPlace = TRACEBENCH_WRONG_PLACE,
    WalksAtWrongPrivilege = TRACEBENCH_WALKS_AT_WRONG_PRIVILEGE,
    AfterClosingPacket = TRACEBENCH_AFTER_CLOSING_PACKET,
    BadState = TRACEBENCH_BAD_STATE,
    NoEvent = TRACEBENCH_NO_EVENT,
    BadBefore = TRACEBENCH_BAD_BEFORE,
    LineFields = TRACEBENCH_LINE_FIELDS,
    LineHartOne = TRACEBENCH_LINE_HART_ONE,
    LineHartTwo = TRACEBENCH_LINE_HART_TWO,
    LineNumber = TRACEBENCH_LINE_NUMBER,
    LineBytes = TRACEBENCH_LINE_BYTES,
    LineAbove = TRACEBENCH_LINE_ABOVE,
    NoSymbol = TRACEBENCH_NO_SYMBOL,
    SymbolsTooLarge = TRACEBENCH_SYMBOLS_TOO_LARGE,
    UnequalCounts = TRACEBENCH_UNEQUAL_COUNTS,
};

/* A status as text. It is never null. */
inline const char *status_text(status why) noexcept { return tracebench_status_text(static_cast<std::uint32_t>(why)); }

/* What address fields hold. */
enum class address_mode : std::uint32_t { Differential = TRACEBENCH_DIFFERENTIAL, Full = TRACEBENCH_FULL };

/* Versions of a capture. */
enum class capture_version : std::uint32_t { One = TRACEBENCH_VERSION_ONE, Two = TRACEBENCH_VERSION_TWO };

/* How a listing is laid out. */
enum class text_format : std::uint32_t { Lines = TRACEBENCH_TEXT, Table = TRACEBENCH_CSV };
enum class salvage_format : std::uint32_t {
    Lines = TRACEBENCH_TEXT,
    Table = TRACEBENCH_CSV,
    Summary = TRACEBENCH_SUMMARY
};

/* What a program does that is generated, and how the harts behave that run it. */
enum class mix : std::uint32_t {
    Mixed = TRACEBENCH_MIXED,
    Branches = TRACEBENCH_BRANCHES,
    Jumps = TRACEBENCH_JUMPS,
    Traps = TRACEBENCH_TRAPS,
    Longest = TRACEBENCH_LONGEST,
    Straight = TRACEBENCH_STRAIGHT,
};

/* As many harts as the messages of a capture show. */
constexpr std::uint16_t harts_shown = TRACEBENCH_HARTS_SHOWN;

using packet = ::tracebench_packet;
using event = ::tracebench_event;
using encoder_state = ::tracebench_encoder_state;
using decoder_state = ::tracebench_decoder_state;
using hart_state = ::tracebench_hart_state;
using walk_state = ::tracebench_walk_state;
using log_place = ::tracebench_log_place;
using dump_end = ::tracebench_dump_end;
using tally = ::tracebench_tally;
using message = ::tracebench_message;
using header = ::tracebench_header;
using hart_row = ::tracebench_hart_row;
using arrival = ::tracebench_arrival;
using lost_run = ::tracebench_lost_run;
using byte_run = ::tracebench_byte_run;
using sent_place = ::tracebench_sent_place;
using path_end = ::tracebench_path_end;

/* What became of a message of RECEIVED. */
enum class fate : std::uint32_t {
    InOrder = TRACEBENCH_FATE_IN_ORDER,
    Late = TRACEBENCH_FATE_LATE,
    Repeat = TRACEBENCH_FATE_REPEAT,
    Changed = TRACEBENCH_FATE_CHANGED,
    Stranger = TRACEBENCH_FATE_STRANGER,
    Extra = TRACEBENCH_FATE_EXTRA,
};
using hart_end = ::tracebench_hart_end;
using decode_all_end = ::tracebench_decode_all_end;
using text_end = ::tracebench_text_end;
using explain_end = ::tracebench_explain_end;

#ifdef __cpp_exceptions
/* What `expect` throws. */
class refused : public std::exception {
  public:
    explicit refused(status why) noexcept : why_(why) {}
    status why() const noexcept { return why_; }
    const char *what() const noexcept override { return status_text(why_); }

  private:
    status why_;
};

/* Throws `refused` where a call did not end with status::Done. */
inline void expect(status why) {
    if (why != status::Done) throw refused(why);
}
#endif

#if __cplusplus >= 202002L
template <class T> using span = std::span<T>;
#else
/* Elements that somebody else owns. */
template <class T> class span {
    template <class C> using element_of = std::remove_pointer_t<decltype(std::data(std::declval<C &>()))>;
    template <class C> using if_fits = std::enable_if_t<std::is_convertible_v<element_of<C> (*)[], T (*)[]>>;

  public:
    constexpr span() noexcept = default;
    constexpr span(T *data, std::size_t size) noexcept : data_(data), size_(size) {}
    template <class C, class = if_fits<C>>
    constexpr span(C &elements) noexcept : data_(std::data(elements)), size_(std::size(elements)) {}
    template <class C, class = if_fits<const C>>
    constexpr span(const C &elements) noexcept : data_(std::data(elements)), size_(std::size(elements)) {}

    constexpr T *data() const noexcept { return data_; }
    constexpr std::size_t size() const noexcept { return size_; }
    constexpr bool empty() const noexcept { return size_ == 0; }
    constexpr T *begin() const noexcept { return data_; }
    constexpr T *end() const noexcept { return data_ + size_; }
    constexpr T &operator[](std::size_t place) const noexcept { return data_[place]; }

  private:
    T *data_ = nullptr;
    std::size_t size_ = 0;
};
#endif

/* The bytes of a text, and the text of bytes. */
inline span<const std::uint8_t> bytes_of(std::string_view text) noexcept {
    return {reinterpret_cast<const std::uint8_t *>(text.data()), text.size()};
}
inline std::string_view text_of(span<const std::uint8_t> bytes) noexcept {
    return {reinterpret_cast<const char *>(bytes.data()), bytes.size()};
}

/* What a call hands out into, with at most N elements in place. */
template <class T, std::size_t N> class few {
  public:
    const T *data() const noexcept { return at_.data(); }
    std::size_t size() const noexcept { return size_; }
    bool empty() const noexcept { return size_ == 0; }
    const T *begin() const noexcept { return data(); }
    const T *end() const noexcept { return data() + size_; }
    const T &operator[](std::size_t place) const noexcept { return at_[place]; }

    /* What a call may write to, and how many elements it wrote there. */
    span<T> room() noexcept { return {at_.data(), N}; }
    void keep(std::size_t count) noexcept { size_ = count; }

  private:
    std::array<T, N> at_;
    std::size_t size_ = 0;
};

/* A payload, the bytes of a message and of a header, and the packets that an event makes due. */
using payload = few<std::uint8_t, 18>;
using message_bytes = few<std::uint8_t, 29>;
using header_bytes = few<std::uint8_t, 16>;
using due = few<packet, 2>;

/* What a call hands out into, with memory of its own that grows to what is wanted, and stays for the next call. */
template <class T> class buffer {
    static_assert(std::is_trivial_v<T>, "a call writes these");

  public:
    buffer() noexcept = default;
    buffer(buffer &&other) noexcept { *this = std::move(other); }
    buffer &operator=(buffer &&other) noexcept {
        at_ = std::move(other.at_);
        room_ = std::exchange(other.room_, 0);
        size_ = std::exchange(other.size_, 0);
        return *this;
    }

    T *data() noexcept { return at_.get(); }
    const T *data() const noexcept { return at_.get(); }
    std::size_t size() const noexcept { return size_; }
    bool empty() const noexcept { return size_ == 0; }
    T *begin() noexcept { return data(); }
    T *end() noexcept { return data() + size_; }
    const T *begin() const noexcept { return data(); }
    const T *end() const noexcept { return data() + size_; }
    T &operator[](std::size_t place) noexcept { return at_[place]; }
    const T &operator[](std::size_t place) const noexcept { return at_[place]; }

    /* What a call may write to, and how many elements it wrote there. */
    span<T> room() noexcept { return {at_.get(), room_}; }
    void keep(std::size_t count) noexcept { size_ = count; }

    /* Has memory for so many elements, and none of them. Where an allocation fails, all stays, and it is false. */
    [[nodiscard]] bool grow(std::size_t wanted) noexcept {
        if (wanted > std::numeric_limits<std::ptrdiff_t>::max() / sizeof(T)) return false;
        std::unique_ptr<T[]> at(new (std::nothrow) T[wanted]);
        if (at == nullptr) return false;
        at_ = std::move(at);
        room_ = wanted;
        size_ = 0;
        return true;
    }

  private:
    std::unique_ptr<T[]> at_;
    std::size_t room_ = 0;
    std::size_t size_ = 0;
};

using bytes = buffer<std::uint8_t>;

namespace detail {

/* What an empty span points to where it is null, since C wants no null. It is neither read nor written. */
template <class T> inline std::remove_const_t<T> nowhere{};

template <class T> T *at(span<T> slice) noexcept { return slice.data() != nullptr ? slice.data() : &nowhere<T>; }

/* Lets a call write into what is there, and keeps so many elements. */
template <class Into, class Call> status into_room(Into &into, Call call, std::size_t &count) noexcept {
    into.keep(0);
    const status said = call(into.room(), count);
    if (said == status::Done) into.keep(count);
    return said;
}

/* The same into elements in place, of which there are always enough. */
template <class T, std::size_t N, class Call> status into(few<T, N> &into, Call call) noexcept {
    std::size_t count = 0;
    return into_room(into, call, count);
}

/* The same into a buffer. Where that is too small it grows, and the call is made again. */
template <class T, class Call> status into(buffer<T> &into, Call call) noexcept {
    std::size_t count = 0;
    const status said = into_room(into, call, count);
    if (said != status::TooSmall) return said;
    return into.grow(count) ? into_room(into, call, count) : status::Memory;
}

} // namespace detail

/* The version of the library, that of the header where it is TRACEBENCH_VERSION. */
inline status version(span<std::uint8_t> room, std::size_t &wanted) noexcept {
    return status{tracebench_version(detail::at(room), room.size(), &wanted)};
}

inline bool is_this_version() noexcept {
    few<std::uint8_t, 16> text;
    const status said = detail::into(text, [](auto room, auto &wanted) { return version(room, wanted); });
    return said == status::Done && text_of({text.data(), text.size()}) == TRACEBENCH_VERSION;
}

/* Packets and payloads. */

inline status pack(const packet &given, span<std::uint8_t> room, std::size_t &wanted) noexcept {
    return status{tracebench_pack(&given, detail::at(room), room.size(), &wanted)};
}

inline status pack(const packet &given, payload &packed) noexcept {
    return detail::into(packed, [&](auto room, auto &wanted) { return pack(given, room, wanted); });
}

inline status unpack(span<const std::uint8_t> given, packet &unpacked) noexcept {
    return status{tracebench_unpack(detail::at(given), given.size(), &unpacked)};
}

/* A piece of an image, whose bytes somebody else owns. */
using piece = ::tracebench_piece;

/* The piece of these bytes from an address on. */
inline piece piece_of(std::uint64_t base, span<const std::uint8_t> bytes) noexcept {
    return tracebench_image(base, detail::at(bytes), bytes.size());
}

/* A program: an image from the address of its first byte on, or pieces of one, which are sorted by base. */
class program {
  public:
    program(std::uint64_t base, span<const std::uint8_t> image) noexcept : image_(piece_of(base, image)) {}
    explicit program(span<const piece> pieces) noexcept : pieces_(detail::at(pieces)), size_(pieces.size()) {}

    const piece *data() const noexcept { return pieces_ != nullptr ? pieces_ : &image_; }
    std::size_t size() const noexcept { return size_; }

  private:
    piece image_{};
    const piece *pieces_ = nullptr;
    std::size_t size_ = 1;
};

/* Events in, their packets out. */

inline status encoder(std::uint16_t period, address_mode mode, encoder_state &state, packet &opening) noexcept {
    return status{tracebench_encoder(period, static_cast<std::uint32_t>(mode), &state, &opening)};
}

inline status push(const program &of, encoder_state &state, const event &next, due &packets) noexcept {
    return detail::into(packets, [&](auto room, auto &count) {
        return status{tracebench_push(of.data(), of.size(), &state, &next, room.data(),
                                      room.size(), &count)};
    });
}

inline status push_checked(const program &of, encoder_state &state, const event &next, due &packets) noexcept {
    return detail::into(packets, [&](auto room, auto &count) {
        return status{tracebench_push_checked(of.data(), of.size(), &state, &next,
                                              room.data(), room.size(), &count)};
    });
}

/* Events at once, into so much room, which has the packets of those that are taken. */
inline status push_all(const program &of, encoder_state &state, span<const event> nexts, span<packet> room,
                       std::size_t &taken, std::size_t &count) noexcept {
    return status{tracebench_push_all(of.data(), of.size(), &state, detail::at(nexts),
                                      nexts.size(), detail::at(room), room.size(), &taken, &count)};
}

/* The same into a buffer, which has room for the packets of all of them. */
inline status push_all(const program &of, encoder_state &state, span<const event> nexts, buffer<packet> &packets,
                       std::size_t &taken) noexcept {
    taken = 0;
    packets.keep(0);
    if (packets.room().size() / 2 < nexts.size() && !packets.grow(2 * nexts.size()))
        return status::Memory;
    std::size_t count = 0;
    const status said = push_all(of, state, nexts, packets.room(), taken, count);
    packets.keep(count);
    return said;
}

/* Whether an event is legal as the first of a log, and whether it is after the event before. */
inline status follow(const program &of, const event &first) noexcept {
    return status{tracebench_follow(of.data(), of.size(), 0, &first, &first)};
}

inline status follow(const program &of, const event &before, const event &next) noexcept {
    return status{tracebench_follow(of.data(), of.size(), 1, &before, &next)};
}

inline status check(const program &of, span<const event> events, std::uint64_t &row) noexcept {
    return status{tracebench_check_events(of.data(), of.size(), detail::at(events),
                                          events.size(), &row)};
}

inline status finish(const program &of, const encoder_state &state, due &packets) noexcept {
    return detail::into(packets, [&](auto room, auto &count) {
        return status{tracebench_finish(of.data(), of.size(), &state, room.data(),
                                        room.size(), &count)};
    });
}

/* Stimulus. */

inline status generate_image(mix how, std::uint64_t seed, span<std::uint8_t> room, std::size_t &wanted) noexcept {
    return status{tracebench_generate_image(static_cast<std::uint32_t>(how), seed, detail::at(room), room.size(),
                                            &wanted)};
}

inline status generate_image(mix how, std::uint64_t seed, bytes &image) noexcept {
    return detail::into(image, [&](auto room, auto &wanted) { return generate_image(how, seed, room, wanted); });
}

/* The walk of a hart before its first event. */
inline walk_state walk(mix how, std::uint64_t seed, std::uint16_t hart) noexcept {
    return {seed, 0, 0, static_cast<std::uint32_t>(how), hart, 0, 0};
}

inline status generate_events(const program &of, walk_state &hart, span<event> events) noexcept {
    return status{tracebench_generate_events(of.data(), of.size(), &hart, detail::at(events), events.size())};
}

/* Payloads in, their events out. */

inline void decoder(decoder_state &state) noexcept { tracebench_decoder(&state); }

inline status feed(const program &of, decoder_state &state, span<const std::uint8_t> given, span<event> room,
                   std::size_t &count) noexcept {
    return status{tracebench_feed(of.data(), of.size(), &state, detail::at(given),
                                  given.size(), detail::at(room), room.size(), &count)};
}

inline status feed(const program &of, decoder_state &state, span<const std::uint8_t> given,
                   buffer<event> &events) noexcept {
    return detail::into(events, [&](auto room, auto &count) { return feed(of, state, given, room, count); });
}

/* Payloads one after the other, and where each ends. */
struct payloads {
    span<const std::uint8_t> bytes;
    span<const std::size_t> ends;
};

/* Payloads at once, into so much room, which has the events of those that are taken. */
inline status feed_all(const program &of, decoder_state &state, const payloads &given, span<event> room,
                       std::size_t &taken, std::size_t &count) noexcept {
    return status{tracebench_feed_all(of.data(), of.size(), &state, detail::at(given.bytes),
                                      given.bytes.size(), detail::at(given.ends), given.ends.size(), detail::at(room),
                                      room.size(), &taken, &count)};
}

/* The messages of a hart, where some of them may be lost. */

inline status receive(const program &of, hart_state &hart, std::uint64_t number, span<const std::uint8_t> given,
                      buffer<event> &events, std::uint64_t &missing) noexcept {
    return detail::into(events, [&](auto room, auto &count) {
        return status{tracebench_receive(of.data(), of.size(), &hart, number,
                                         detail::at(given), given.size(), detail::at(room), room.size(), &count,
                                         &missing)};
    });
}

inline status resume(hart_state &hart, std::uint64_t number, address_mode mode) noexcept {
    return status{tracebench_resume(&hart, number, static_cast<std::uint32_t>(mode))};
}

/* Messages and headers: the bytes of a capture, one part at a time. */

inline status write_message(std::uint16_t hart, std::uint64_t number, span<const std::uint8_t> given,
                            span<std::uint8_t> room, std::size_t &wanted) noexcept {
    return status{tracebench_write_message(hart, number, detail::at(given), given.size(), detail::at(room),
                                           room.size(), &wanted)};
}

inline status write_message(std::uint16_t hart, std::uint64_t number, span<const std::uint8_t> given,
                            message_bytes &written) noexcept {
    return detail::into(
        written, [&](auto room, auto &wanted) { return write_message(hart, number, given, room, wanted); });
}

inline status read_message(span<const std::uint8_t> given, message &found, std::size_t &taken) noexcept {
    return status{tracebench_read_message(detail::at(given), given.size(), &found, &taken)};
}

/* The bytes of the payload of a message that was read. */
inline span<const std::uint8_t> payload_of(const message &of) noexcept { return {of.payload, of.payload_length}; }

inline status write_header(const header &of, span<std::uint8_t> room, std::size_t &wanted) noexcept {
    return status{tracebench_write_header(&of, detail::at(room), room.size(), &wanted)};
}

inline status write_header(const header &of, header_bytes &written) noexcept {
    return detail::into(written, [&](auto room, auto &wanted) { return write_header(of, room, wanted); });
}

inline status read_header(span<const std::uint8_t> given, header &found, std::size_t &taken) noexcept {
    return status{tracebench_read_header(detail::at(given), given.size(), &found, &taken)};
}

/* Whole logs and captures. */

inline status check(const program &of, span<const std::uint8_t> log, std::uint64_t &row) noexcept {
    return status{tracebench_check(of.data(), of.size(), detail::at(log), log.size(), &row)};
}

/* How logs are encoded. */
struct settings {
    std::uint16_t period = 1024;
    address_mode mode = address_mode::Differential;
    capture_version version = capture_version::Two;
};

/* The texts of logs one after the other, and where each ends. */
struct logs {
    span<const std::uint8_t> texts;
    span<const std::size_t> ends;
};

inline status encode(const program &of, const logs &given, const settings &how, span<std::uint8_t> room,
                     std::size_t &wanted, log_place &place) noexcept {
    return status{tracebench_encode(of.data(), of.size(), detail::at(given.texts),
                                    given.texts.size(), detail::at(given.ends), given.ends.size(), how.period,
                                    static_cast<std::uint32_t>(how.mode), static_cast<std::uint32_t>(how.version),
                                    detail::at(room), room.size(), &wanted, &place)};
}

inline status encode(const program &of, const logs &given, const settings &how, bytes &capture,
                     log_place &place) noexcept {
    return detail::into(capture,
                        [&](auto room, auto &wanted) { return encode(of, given, how, room, wanted, place); });
}

/* The capture of lines of text, of so many harts; with 0 of those up to the highest of the lines. A line has one of so
 * many numbers, with 0 the message's own. */
inline status capture_of_lines(span<const std::uint8_t> text, const settings &how, std::uint16_t harts,
                               span<std::uint8_t> room, std::size_t &wanted, std::uint64_t &line,
                               std::uint64_t numbers = 0) noexcept {
    return status{tracebench_capture_of_lines(detail::at(text), text.size(), static_cast<std::uint32_t>(how.version),
                                              static_cast<std::uint32_t>(how.mode), how.period, harts, numbers,
                                              detail::at(room), room.size(), &wanted, &line)};
}

inline status capture_of_lines(span<const std::uint8_t> text, const settings &how, std::uint16_t harts,
                               bytes &capture, std::uint64_t &line, std::uint64_t numbers = 0) noexcept {
    return detail::into(capture, [&](auto room, auto &wanted) {
        return capture_of_lines(text, how, harts, room, wanted, line, numbers);
    });
}

inline status dump(span<const std::uint8_t> capture, span<std::uint8_t> room, std::size_t &wanted,
                   dump_end &ended) noexcept {
    return status{
        tracebench_dump(detail::at(capture), capture.size(), detail::at(room), room.size(), &wanted, &ended)};
}

inline status dump(span<const std::uint8_t> capture, bytes &text, dump_end &ended) noexcept {
    return detail::into(text, [&](auto room, auto &wanted) { return dump(capture, room, wanted, ended); });
}

/* How messages are compared: by their numbers, or by their payloads alone; and payloads by bytes or by packets. */
enum class compared : std::uint32_t {
    ByBytes = 0,
    ByPackets = TRACEBENCH_BY_PACKETS,
    UnnumberedByBytes = TRACEBENCH_UNNUMBERED,
    UnnumberedByPackets = TRACEBENCH_UNNUMBERED | TRACEBENCH_BY_PACKETS,
};

/* What is found of a path: of its harts, of each message that came, which numbers were lost, which bytes are of no
 * message, and the rest. */
struct audited_path {
    buffer<hart_row> rows;
    buffer<arrival> arrivals;
    buffer<lost_run> lost;
    buffer<byte_run> runs;
    path_end ended;
};

inline status audit_all(span<const std::uint8_t> sent, span<const std::uint8_t> received, compared how,
                        span<hart_row> rows, span<arrival> arrivals, span<lost_run> lost, span<byte_run> runs,
                        sent_place &refused, path_end &ended) noexcept {
    return status{tracebench_audit_all(detail::at(sent), sent.size(), detail::at(received), received.size(),
                                       static_cast<std::uint32_t>(how), detail::at(rows), rows.size(),
                                       detail::at(arrivals), arrivals.size(), detail::at(lost), lost.size(),
                                       detail::at(runs), runs.size(), &refused, &ended)};
}

/* The same into buffers. Where one is too small they grow, and the call is made again. */
inline status audit_all(span<const std::uint8_t> sent, span<const std::uint8_t> received, compared how,
                        audited_path &found, sent_place &refused) noexcept {
    const auto call = [&] {
        return audit_all(sent, received, how, found.rows.room(), found.arrivals.room(), found.lost.room(),
                         found.runs.room(), refused, found.ended);
    };
    const auto fits = [](auto &into, std::size_t count) { return into.room().size() >= count || into.grow(count); };
    found.rows.keep(0);
    found.arrivals.keep(0);
    found.lost.keep(0);
    found.runs.keep(0);
    status said = call();
    if (said == status::TooSmall) {
        if (!fits(found.rows, found.ended.harts) || !fits(found.arrivals, found.ended.messages) ||
            !fits(found.lost, found.ended.lost_runs) || !fits(found.runs, found.ended.byte_runs))
            return status::Memory;
        said = call();
    }
    if (said != status::Done) return said;
    found.rows.keep(found.ended.harts);
    found.arrivals.keep(found.ended.messages);
    found.lost.keep(found.ended.lost_runs);
    found.runs.keep(found.ended.byte_runs);
    return said;
}

/* The texts of all harts, one after the other, and where each ends. */
inline status decode_all(const program &of, std::uint16_t harts, span<const std::uint8_t> capture,
                         span<std::uint8_t> room, std::size_t &wanted, span<hart_end> ends,
                         decode_all_end &ended) noexcept {
    return status{tracebench_decode_all(of.data(), of.size(), harts,
                                             detail::at(capture), capture.size(), detail::at(room), room.size(),
                                             &wanted, detail::at(ends), ends.size(), &ended)};
}

inline status list(const program &of, std::uint16_t harts, span<const std::uint8_t> capture,
                   span<const std::uint8_t> symbols, text_format how, bytes &text, text_end &ended) noexcept {
    return detail::into(text, [&](auto room, auto &wanted) {
        return status{tracebench_list(of.data(), of.size(), harts,
                                           detail::at(capture), capture.size(), detail::at(symbols), symbols.size(),
                                           static_cast<std::uint32_t>(how), detail::at(room), room.size(), &wanted,
                                           &ended)};
    });
}

inline status salvage(const program &of, std::uint16_t harts, span<const std::uint8_t> capture, salvage_format how,
                      bytes &text, text_end &ended) noexcept {
    return detail::into(text, [&](auto room, auto &wanted) {
        return status{tracebench_salvage(of.data(), of.size(), harts,
                                           detail::at(capture), capture.size(), static_cast<std::uint32_t>(how),
                                           detail::at(room), room.size(), &wanted, &ended)};
    });
}

inline status list_salvaged(const program &of, std::uint16_t harts, span<const std::uint8_t> capture,
                            span<const std::uint8_t> symbols, text_format how, bytes &text,
                            text_end &ended) noexcept {
    return detail::into(text, [&](auto room, auto &wanted) {
        return status{tracebench_list_salvaged(of.data(), of.size(), harts,
                                           detail::at(capture), capture.size(), detail::at(symbols), symbols.size(),
                                           static_cast<std::uint32_t>(how), detail::at(room), room.size(), &wanted,
                                           &ended)};
    });
}

/* The version of these settings is not looked at. */
inline status measure(const program &of, const logs &given, const settings &how, bytes &table,
                      log_place &place) noexcept {
    return detail::into(table, [&](auto room, auto &wanted) {
        return status{tracebench_measure(
            of.data(), of.size(), detail::at(given.texts), given.texts.size(),
            detail::at(given.ends), given.ends.size(), how.period, static_cast<std::uint32_t>(how.mode),
            detail::at(room), room.size(), &wanted, &place)};
    });
}

inline status compare(const program &of, std::uint16_t harts, span<const std::uint8_t> capture, const logs &given,
                      bytes &text, text_end &ended, log_place &place) noexcept {
    return detail::into(text, [&](auto room, auto &wanted) {
        return status{tracebench_compare(
            of.data(), of.size(), harts, detail::at(capture), capture.size(),
            detail::at(given.texts), given.texts.size(), detail::at(given.ends), given.ends.size(), detail::at(room),
            room.size(), &wanted, &ended, &place)};
    });
}

inline status explain(const program &of, span<const std::uint8_t> log, bytes &text, explain_end &ended) noexcept {
    return detail::into(text, [&](auto room, auto &wanted) {
        return status{tracebench_explain(of.data(), of.size(), detail::at(log),
                                              log.size(), detail::at(room), room.size(), &wanted, &ended)};
    });
}

/* The texts of all harts into buffers. `ends` has one for each hart. */
inline status decode_all(const program &of, std::uint16_t harts, span<const std::uint8_t> capture, bytes &logs,
                         buffer<hart_end> &ends, decode_all_end &ended) noexcept {
    logs.keep(0);
    ends.keep(0);
    std::size_t wanted = 0;
    status said = decode_all(of, harts, capture, logs.room(), wanted, ends.room(), ended);
    if (said == status::TooSmall) {
        if (logs.room().size() < wanted && !logs.grow(wanted)) return status::Memory;
        if (ends.room().size() < ended.harts && !ends.grow(ended.harts)) return status::Memory;
        said = decode_all(of, harts, capture, logs.room(), wanted, ends.room(), ended);
    }
    if (said != status::Done) return said;
    logs.keep(wanted);
    ends.keep(ended.harts);
    return said;
}

} // namespace TRACEBENCH_SPANS
} // namespace tracebench

#undef TRACEBENCH_SPANS

#endif
