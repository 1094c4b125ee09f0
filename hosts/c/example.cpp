// A client's and a provider's turn in C++17: requests written, put to the front and read; replies written and read.
// Then a service's table: requests entered, replies arriving.
#include <algorithm>
#include <array>
#include <cstdint>
#include <iomanip>
#include <iostream>
#include <iterator>
#include <string_view>

#include "tushalets.hpp"

namespace {

// Cells of the fields that are shown here (the table in tushalets.h).
constexpr std::size_t result = 0, rename_old_path = 0, rename_new_path = 2, rename_flags = 4;
constexpr std::size_t open_path = 0, open_flags = 2, unlink_path = 0, read_data = 1;

// A type that no method has, and the bytes of a getattr request with a path of two bytes.
constexpr std::uint8_t no_method = 0x42;
constexpr std::size_t getattr_size = 11;

// The result for a file that is not there.
constexpr std::int32_t enoent_result = -2;

constexpr std::uint8_t filling = 0xaa;

using room = std::array<std::uint8_t, 64>;

// What a writer or the front stored.
tushalets::byte_view stored(const room &out, std::size_t len) { return {out.data(), len}; }

void print_bytes(tushalets::byte_view bytes) {
    for (unsigned byte : bytes) std::cout << ' ' << std::hex << std::setw(2) << std::setfill('0') << byte << std::dec;
    std::cout << '\n';
}

void show_front(std::string_view which, tushalets::byte_view message) {
    room out;
    const auto fronted = tushalets::front(message, out);
    std::cout << "front, " << which << ':';
    if (fronted.act == TUSHALETS_ACT_HANDED_ON) {
        std::cout << " handed on\n";
    } else if (fronted.act == TUSHALETS_ACT_STORED) {
        print_bytes(stored(out, fronted.len));
    } else {
        std::cout << " refused " << fronted.number << " at " << fronted.place << '\n';
    }
}

void show_rename() {
    room out;
    const auto written = tushalets::write_request(9, TUSHALETS_RENAME, {1}, "/grüße", "/b", out);
    const auto request = tushalets::reading::request(stored(out, written.len));
    std::cout << "request rename id " << request.id() << ' ' << request.text(rename_old_path) << " to "
              << request.text(rename_new_path) << " flags " << request.number(rename_flags) << " known "
              << request.known() << " of " << request.message().size() << '\n';
    show_front("whole request", request.message());
    show_front("last byte missing", stored(out, written.len - 1));
}

void show_open() {
    room out;
    const auto flags = static_cast<std::uint64_t>(-1);
    const auto written = tushalets::write_request(3, TUSHALETS_OPEN, {flags}, "/a", {}, out);
    const auto request = tushalets::reading::request(stored(out, written.len));
    std::cout << "request open id " << request.id() << ' ' << request.text(open_path) << " flags "
              << request.signed_number(open_flags) << '\n';
}

// A zero byte in a literal is part of the path.
void show_zero_byte() {
    room out;
    const auto written = tushalets::write_request(8, TUSHALETS_UNLINK, {}, "/a\0b", {}, out);
    const auto request = tushalets::reading::request(stored(out, written.len));
    std::cout << "request unlink id " << request.id() << " path";
    print_bytes(request.data(unlink_path));
}

void show_unknown() {
    room out;
    const auto written = tushalets::write_unknown_request(35, no_method, out);
    show_front("unknown request", stored(out, written.len));
    show_front("a view of nothing", {});
}

void show_read_reply() {
    room out;
    const std::array<std::uint8_t, 3> data = {0x00, 0x80, 0xff};
    const auto written = tushalets::write_reply(4, TUSHALETS_READ + TUSHALETS_REPLY, 3, {}, data, {}, out);
    const auto reply = tushalets::reading::reply(stored(out, written.len));
    std::cout << "reply read id " << reply.id() << " result " << reply.signed_number(result) << " data";
    print_bytes(reply.data(read_data));
    std::cout << "names " << reply.names().size() << '\n';
}

void show_readdir_reply() {
    room out;
    const std::array<std::uint32_t, 4> lengths = {1, 2, 0, 7};
    const auto written =
        tushalets::write_reply(2, TUSHALETS_READDIR + TUSHALETS_REPLY, 0, {}, "...grüße", lengths, out);
    const auto reply = tushalets::reading::reply(stored(out, written.len));
    const auto names = reply.names();
    std::cout << "names " << names.size() << '\n';
    for (std::string_view name : names) std::cout << "name " << name << " of " << name.size() << '\n';
    const bool has_parent = std::find(names.begin(), names.end(), "..") != names.end();
    const bool has_source = std::find(names.begin(), names.end(), "src") != names.end();
    std::cout << ".. " << (has_parent ? "found" : "missing") << ", src " << (has_source ? "found" : "missing") << '\n';
}

// A refused write leaves the buffer as it was.
void show_refused_write(std::string_view which, tushalets::byte_view path, std::size_t size) {
    room out;
    out.fill(filling);
    const auto written = tushalets::write_request(1, TUSHALETS_GETATTR, {}, path, {}, {out.data(), size});
    const bool kept = std::all_of(out.begin(), out.end(), [](auto byte) { return byte == filling; });
    std::cout << which << ": refused " << written.number << " at " << written.place << ", " << written.len
              << " bytes stored, " << (kept ? "buffer as before" : "buffer changed") << '\n';
}

void show_outstanding(const tushalets::outstanding &table, std::uint32_t id) {
    const auto type = table.type_of(id);
    std::cout << table.size() << " outstanding, " << id << ' ';
    if (type) {
        std::cout << "with type " << unsigned(*type) << '\n';
    } else {
        std::cout << "not\n";
    }
}

// A failure with this id and of this type arrives.
void show_arrived(tushalets::outstanding &table, std::uint32_t id, std::uint8_t type) {
    room out;
    const auto written = tushalets::write_failure(id, type, enoent_result, out);
    const auto reply = table.arrive(stored(out, written.len));
    std::cout << "reply to " << id << ": ";
    if (reply) {
        std::cout << "result " << reply.signed_number(result) << '\n';
    } else {
        std::cout << "refused " << reply.refusal() << " at " << reply.place() << '\n';
    }
}

void show_entered(tushalets::outstanding &table, std::uint32_t id, std::uint8_t type) {
    const auto number = table.enter(id, type);
    std::cout << "request " << id << ": " << (number == 0 ? "entered " : "refused ") << number << '\n';
}

void show_table() {
    constexpr std::uint32_t one_more = tushalets::outstanding::capacity;
    tushalets::outstanding table;
    for (std::uint32_t id = 0; id < one_more; id++) table.enter(id, TUSHALETS_OPEN);
    show_entered(table, 1, TUSHALETS_STATFS);
    show_entered(table, one_more, TUSHALETS_STATFS);
    show_arrived(table, one_more, TUSHALETS_STATFS + TUSHALETS_REPLY);
    show_arrived(table, 1, TUSHALETS_STATFS + TUSHALETS_REPLY);
    show_arrived(table, 1, TUSHALETS_OPEN + TUSHALETS_REPLY);
    show_outstanding(table, 1);
    show_entered(table, one_more, TUSHALETS_STATFS);
    show_outstanding(table, one_more);
    table.clear();
    show_outstanding(table, one_more);
}

} // namespace

int main() {
    if (!tushalets::fits()) {
        std::cerr << "example: version " << TUSHALETS_VERSION << " is needed, " << tushalets_version()
                  << " is linked\n";
        return 1;
    }
    std::cout << "version " << tushalets_version() << '\n';
    show_rename();
    show_open();
    show_zero_byte();
    show_unknown();
    show_read_reply();
    show_readdir_reply();
    show_refused_write("malformed path", "/\xed\xa0\x80", room().size());
    show_refused_write("buffer too small", "/a", getattr_size - 1);
    const auto written = tushalets::write_request(6, TUSHALETS_GETCREDS, {}, {}, {}, {});
    std::cout << "a buffer of nothing: refused " << written.number << " at " << written.place << '\n';
    show_table();
}
