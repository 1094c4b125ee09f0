// What tushalets.hpp takes as bytes, and what it does not, and what may be done with a constant table: checked in
// compiling this file, which makes no program.
#include <array>
#include <cstddef>
#include <cstdint>
#include <string>
#include <string_view>
#include <type_traits>
#include <utility>
#include <vector>

#include "tushalets.hpp"

namespace {

using tushalets::buffer;
using tushalets::byte_view;
using tushalets::outstanding;
using tushalets::reading;

using bytes = std::vector<std::uint8_t>;
using byte_array = std::array<std::uint8_t, 5>;
using literal = decltype("/a");

// A class that is seen as characters.
struct path {
    operator std::string_view() const { return "/a"; }
};

template <class T>
constexpr bool is_taken = std::is_constructible_v<byte_view, T> && std::is_convertible_v<T, byte_view>;

template <class T>
constexpr bool is_not_taken = !std::is_constructible_v<byte_view, T> && !std::is_convertible_v<T, byte_view>;

// Bytes, and characters whose number is known.
static_assert(is_taken<bytes &> && is_taken<const bytes &> && is_taken<bytes>);
static_assert(is_taken<byte_array &> && is_taken<const byte_array &> && is_taken<byte_array>);
static_assert(is_taken<std::uint8_t (&)[5]> && is_taken<const std::uint8_t (&)[5]>);
static_assert(is_taken<std::string &> && is_taken<const std::string &> && is_taken<std::string>);
static_assert(is_taken<std::string_view &> && is_taken<std::string_view> && is_taken<path &> && is_taken<literal>);
static_assert(is_taken<buffer> && is_taken<byte_view> && is_taken<byte_view &>);

// Characters whose number is not known, and elements that are no bytes.
static_assert(is_not_taken<char (&)[64]> && is_not_taken<char (&&)[64]>);
static_assert(is_not_taken<char *> && is_not_taken<char *&> && is_not_taken<char *const &>);
static_assert(is_not_taken<const char *> && is_not_taken<const char *&> && is_not_taken<const char *const &>);
static_assert(is_not_taken<const std::uint8_t *> && is_not_taken<std::nullptr_t> && is_not_taken<int>);
static_assert(is_not_taken<std::vector<std::uint32_t> &>);

// What is written to is not constant.
static_assert(std::is_convertible_v<bytes &, buffer> && std::is_convertible_v<byte_array &, buffer>);
static_assert(!std::is_constructible_v<buffer, const bytes &> && !std::is_constructible_v<buffer, const byte_array &>);

template <class T> using request_of = decltype(reading::request(std::declval<T>()));
template <class T> using reply_of = decltype(reading::reply(std::declval<T>()));
template <class T> using arrived_of = decltype(std::declval<outstanding &>().arrive(std::declval<T>()));
template <class T> using fronted_of = decltype(tushalets::front(std::declval<T>(), std::declval<buffer>()));

// Whether a call with such an argument compiles.
template <template <class> class Call, class T, class = void> constexpr bool compiles = false;
template <template <class> class Call, class T> constexpr bool compiles<Call, T, std::void_t<Call<T>>> = true;

template <class T>
constexpr bool is_read = compiles<request_of, T> && compiles<reply_of, T> && compiles<arrived_of, T>;

template <class T>
constexpr bool is_not_read = !compiles<request_of, T> && !compiles<reply_of, T> && !compiles<arrived_of, T>;

// A reading points into the message, which has to stay.
static_assert(is_read<bytes &> && is_read<const bytes &> && is_read<byte_array &> && is_read<const byte_array &>);
static_assert(is_read<std::uint8_t (&)[5]> && is_read<const std::uint8_t (&)[5]> && is_read<literal>);
static_assert(is_read<std::string &> && is_read<const std::string &> && is_read<path &>);
static_assert(is_read<std::string_view> && is_read<byte_view> && is_read<const byte_view> && is_read<buffer>);
static_assert(is_not_read<bytes> && is_not_read<const bytes> && is_not_read<std::uint8_t (&&)[5]>);
static_assert(is_not_read<byte_array> && is_not_read<const byte_array>);
static_assert(is_not_read<std::string> && is_not_read<const std::string> && is_not_read<path>);
static_assert(is_not_read<char (&)[64]> && is_not_read<const char *> && is_not_read<const char *&>);

// The front is done with the message when it returns.
static_assert(compiles<fronted_of, bytes> && compiles<fronted_of, std::string> && compiles<fronted_of, byte_array>);
static_assert(!compiles<fronted_of, char (&)[64]> && !compiles<fronted_of, const char *>);

template <class T> using entered_in = decltype(std::declval<T>().enter(0, TUSHALETS_READ));
template <class T> using arrived_at = decltype(std::declval<T>().arrive(std::declval<byte_view>()));
template <class T> using cleared_in = decltype(std::declval<T>().clear());
template <class T> using asked_in = decltype(std::declval<T>().type_of(std::uint32_t(std::declval<T>().size())));

template <class T>
constexpr bool is_changed = compiles<entered_in, T> && compiles<arrived_at, T> && compiles<cleared_in, T>;

template <class T>
constexpr bool is_not_changed = !compiles<entered_in, T> && !compiles<arrived_at, T> && !compiles<cleared_in, T>;

// A constant table is asked, and not changed.
static_assert(compiles<asked_in, outstanding &> && compiles<asked_in, const outstanding &>);
static_assert(is_changed<outstanding &> && is_not_changed<const outstanding &>);
static_assert(std::is_nothrow_default_constructible_v<outstanding> && std::is_trivially_copyable_v<outstanding>);
static_assert(sizeof(outstanding) == outstanding::capacity * sizeof(std::uint64_t));

} // namespace
