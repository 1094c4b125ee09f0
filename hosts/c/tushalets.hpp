// The webfuse2 message layer for C++17: tushalets.h with views in place of pointers and lengths. Nothing is copied or
// allocated, and nothing throws. A view points into the message that was read and is good as long as that message is
// there and unchanged. What a caller owes is in tushalets.h; null pointers of length 0 are taken care of here.
#ifndef TUSHALETS_HPP
#define TUSHALETS_HPP

#include <array>
#include <cstddef>
#include <cstdint>
#include <iterator>
#include <optional>
#include <string_view>
#include <type_traits>
#include <utility>

#include "tushalets.h"

namespace tushalets {

// Elements that lie one behind the other and belong to someone else. `data()` is never null, so that a view of nothing
// can be passed to the functions of tushalets.h.
template <class T> class view {
  public:
    constexpr view() noexcept = default;
    constexpr view(T *data, std::size_t size) noexcept : data_(data), size_(size) {}

    // All of an array, a vector or another container whose elements lie one behind the other.
    template <class Container,
              class = std::enable_if_t<std::is_convertible_v<decltype(std::data(std::declval<Container &>())), T *>>>
    constexpr view(Container &&elements) noexcept : data_(std::data(elements)), size_(std::size(elements)) {}

    constexpr T *data() const noexcept { return data_ != nullptr ? data_ : &nothing; }
    constexpr std::size_t size() const noexcept { return size_; }
    constexpr bool empty() const noexcept { return size_ == 0; }
    constexpr T *begin() const noexcept { return data(); }
    constexpr T *end() const noexcept { return data() + size_; }
    constexpr T &operator[](std::size_t at) const noexcept { return data_[at]; }

  private:
    static inline std::remove_const_t<T> nothing{};
    T *data_ = nullptr;
    std::size_t size_ = 0;
};

// What a writer stores into.
using buffer = view<std::uint8_t>;

// The lengths of the names of a readdir reply.
using length_view = view<const std::uint32_t>;

namespace detail {

// A class that knows its characters and their number, as std::string and std::string_view do.
template <class T>
inline constexpr bool is_text = std::is_class_v<T> && std::is_convertible_v<const T &, std::string_view>;

// A pointer to characters.
template <class T>
inline constexpr bool is_character_pointer = std::is_pointer_v<T> && std::is_convertible_v<T, const char *>;

// The pointer to the elements.
template <class T> using data_of = decltype(std::data(std::declval<T &>()));

// A view of elements that outlive it: it is copied as bytes, and where it is constant it gives the same elements. An
// owner that is constant gives constant ones.
template <class T, class = void> inline constexpr bool is_borrowed_range = false;
template <class T>
inline constexpr bool is_borrowed_range<T, std::enable_if_t<std::is_same_v<data_of<T>, data_of<const T>>>> =
    std::is_trivially_copyable_v<T>;

} // namespace detail

// A message, data, or the bytes of a text. A zero byte is a byte like another.
class byte_view : public view<const std::uint8_t> {
  public:
    using view::view;
    constexpr byte_view() noexcept = default;

    // The bytes of a string or a string view.
    template <class Text, class = std::enable_if_t<detail::is_text<Text>>>
    byte_view(const Text &text) noexcept : byte_view(of_text(text)) {}

    // The bytes of a literal, without the zero that ends it. A constant array of characters is taken as a literal, and
    // so without its last element.
    template <std::size_t N>
    byte_view(const char (&literal)[N]) noexcept : byte_view(of_text({literal, N - 1})) {}

    // Behind a pointer, or in an array that is filled in part, the number of characters is not known: at the first zero
    // byte a message may go on, and there may be none. Say how many there are: std::string_view(buffer, len).
    template <std::size_t N> byte_view(char (&)[N]) = delete;
    template <std::size_t N> byte_view(char (&&)[N]) = delete;
    template <class Pointer, std::enable_if_t<detail::is_character_pointer<Pointer>, int> = 0>
    byte_view(const Pointer &) = delete;

    // The same bytes as characters.
    std::string_view text() const noexcept { return {reinterpret_cast<const char *>(data()), size()}; }

    // The part of `len` bytes from `start` on; an empty one where it does not lie inside.
    byte_view part(std::uint64_t start, std::uint64_t len) const noexcept {
        if (start > size() || len > size() - start) return {};
        return {data() + start, static_cast<std::size_t>(len)};
    }

  private:
    static byte_view of_text(std::string_view text) noexcept {
        return {reinterpret_cast<const std::uint8_t *>(text.data()), text.size()};
    }
};

// The names of a readdir reply, for a range-based for loop. Only a reading makes one that has names.
class name_range {
  public:
    class iterator {
      public:
        using iterator_category = std::input_iterator_tag;
        using value_type = std::string_view;
        using difference_type = std::ptrdiff_t;
        using pointer = const std::string_view *;
        using reference = const std::string_view &;

        // The end of every range.
        iterator() noexcept = default;

        reference operator*() const noexcept { return name_; }
        pointer operator->() const noexcept { return &name_; }

        iterator &operator++() noexcept {
            step(step_.at, step_.left);
            return *this;
        }

        iterator operator++(int) noexcept {
            iterator before = *this;
            ++*this;
            return before;
        }

        // Equal are two ends, and two iterators at the same name of the same message.
        friend bool operator==(const iterator &a, const iterator &b) noexcept {
            if (a.step_.found == 0 || b.step_.found == 0) return a.step_.found == b.step_.found;
            return a.message_.data() == b.message_.data() && a.step_.at == b.step_.at && a.step_.left == b.step_.left;
        }

        friend bool operator!=(const iterator &a, const iterator &b) noexcept { return !(a == b); }

      private:
        friend class name_range;

        iterator(byte_view message, std::size_t at, std::uint32_t left) noexcept : message_(message) { step(at, left); }

        void step(std::size_t at, std::uint32_t left) noexcept {
            step_ = tushalets_next_name(message_.data(), message_.size(), at, left);
            name_ = message_.part(step_.start, step_.len).text();
        }

        byte_view message_;
        tushalets_name step_{};
        std::string_view name_;
    };

    name_range() noexcept = default;

    iterator begin() const noexcept { return {message_, first_, count_}; }
    iterator end() const noexcept { return {}; }
    std::uint32_t size() const noexcept { return count_; }
    bool empty() const noexcept { return count_ == 0; }

  private:
    friend class reading;

    name_range(byte_view message, std::uint64_t first, std::uint64_t count) noexcept
        : message_(message), first_(static_cast<std::size_t>(first)), count_(static_cast<std::uint32_t>(count)) {}

    byte_view message_;
    std::size_t first_ = 0;
    std::uint32_t count_ = 0;
};

// A message and what its reader answered. Cells are those of the table in tushalets.h. One that the type does not have
// is 0, and a part that is not inside the message is empty, so any cell may be asked for.
class reading {
  public:
    static reading request(byte_view message) noexcept {
        return {message, tushalets_read_request(message.data(), message.size())};
    }

    static reading reply(byte_view message) noexcept {
        return {message, tushalets_read_reply(message.data(), message.size())};
    }

    // A temporary that owns the message would be gone while the reading still points into it. Keep it in a variable.
    template <class Owner, class = std::enable_if_t<!detail::is_borrowed_range<Owner>>>
    static reading request(const Owner &&) = delete;
    template <class Owner, class = std::enable_if_t<!detail::is_borrowed_range<Owner>>>
    static reading reply(const Owner &&) = delete;

    // Whether the message was accepted. Else it has a refusal's number and place.
    explicit operator bool() const noexcept { return answer_.shape != TUSHALETS_SHAPE_REFUSED; }
    std::uint32_t refusal() const noexcept { return answer_.number; }
    std::size_t place() const noexcept { return answer_.place; }

    std::uint32_t shape() const noexcept { return answer_.shape; }
    std::uint32_t id() const noexcept { return answer_.id; }
    std::uint32_t type() const noexcept { return answer_.type; }
    std::size_t known() const noexcept { return answer_.known; }
    byte_view message() const noexcept { return message_; }

    // A number, or a bool as 0 or 1.
    std::uint64_t number(std::size_t cell) const noexcept {
        return cell < std::size(answer_.fields) ? answer_.fields[cell] : 0;
    }

    // A number of type i8 or i32.
    std::int32_t signed_number(std::size_t cell) const noexcept {
        return static_cast<std::int32_t>(static_cast<std::uint32_t>(number(cell)));
    }

    // The text whose start is in this cell. It is memory-safe for every cell; it is text, which is well-formed UTF-8,
    // where the table has a string.
    std::string_view text(std::size_t cell) const noexcept { return data(cell).text(); }

    // The bytes whose start is in this cell. It is memory-safe for every cell; they are a field's where the table has a
    // string or bytes.
    byte_view data(std::size_t cell) const noexcept { return message_.part(number(cell), number(cell + 1)); }

    // The names of a readdir reply; none of any other message.
    name_range names() const noexcept {
        if (shape() != TUSHALETS_SHAPE_SUCCESS || type() != TUSHALETS_READDIR + TUSHALETS_REPLY) return {};
        return {message_, answer_.fields[items], answer_.fields[items + 1]};
    }

  private:
    friend class outstanding;

    static constexpr std::size_t items = 1;

    reading(byte_view message, const tushalets_reading &answer) noexcept : message_(message), answer_(answer) {}

    byte_view message_;
    tushalets_reading answer_;
};

// The requests of a service that still wait for a reply: ids, each with the type of its request. The records are
// inside, and only these functions change them, so a refusal as TUSHALETS_UNSOUND_TABLE never occurs. A service whose
// records lie elsewhere lends them to the functions of tushalets.h. A request whose reply never comes, or that could
// not be sent, stays outstanding; only emptying (clear) removes it. While one thread changes a table, no other uses it;
// several may look.
class outstanding {
  public:
    // So many requests may be outstanding at a time.
    static constexpr std::size_t capacity = TUSHALETS_RECORDS;

    // Enters a request, before it is sent. Answers 0, or the number of a refusal. A refusal changes nothing, and its
    // place is 0.
    std::uint32_t enter(std::uint32_t id, std::uint8_t type) noexcept {
        return tushalets_enter(records_.data(), records_.size(), id, type);
    }

    // Reads a reply as reading::reply does, and removes the request that it answers. A refusal changes nothing.
    reading arrive(byte_view message) noexcept {
        return {message, tushalets_arrive(records_.data(), records_.size(), message.data(), message.size())};
    }

    // A temporary that owns the message is not taken, as in a reading.
    template <class Owner, class = std::enable_if_t<!detail::is_borrowed_range<Owner>>>
    reading arrive(const Owner &&) = delete;

    // How many requests are outstanding.
    std::size_t size() const noexcept { return look(any_id).count; }
    bool empty() const noexcept { return size() == 0; }

    // The type of the request with this id, where it is outstanding.
    std::optional<std::uint8_t> type_of(std::uint32_t id) const noexcept {
        const tushalets_looked looked = look(id);
        if (looked.held == 0) return {};
        return static_cast<std::uint8_t>(looked.type);
    }

    // Removes all requests.
    void clear() noexcept { tushalets_empty(records_.data(), records_.size()); }

  private:
    static constexpr std::uint32_t any_id = 0;

    tushalets_looked look(std::uint32_t id) const noexcept {
        return tushalets_look(records_.data(), records_.size(), id);
    }

    std::array<std::uint64_t, capacity> records_{};
};

// The answers of writers and front, as in tushalets.h.
using written = tushalets_written;
using fronted = tushalets_fronted;

// The numbers of a message to be written. Those that are left out are 0.
using request_numbers = std::array<std::uint64_t, 5>;
using reply_numbers = std::array<std::uint64_t, 14>;

// Whether the library that is linked has the version of this header.
inline bool fits() noexcept { return tushalets_fits() != 0; }

inline std::size_t well_formed_end(byte_view text) noexcept {
    return tushalets_well_formed_end(text.data(), text.size());
}

inline fronted front(byte_view message, buffer out) noexcept {
    return tushalets_front(message.data(), message.size(), out.data(), out.size());
}

inline written list_request(byte_view message, buffer out) noexcept {
    return tushalets_list_request(message.data(), message.size(), out.data(), out.size());
}

inline written write_request(std::uint32_t id, std::uint8_t type, const request_numbers &numbers, byte_view first,
                             byte_view second, buffer out) noexcept {
    return tushalets_write_request(id, type, numbers.data(), first.data(), first.size(), second.data(), second.size(),
                                   out.data(), out.size());
}

inline written write_unknown_request(std::uint32_t id, std::uint8_t type, buffer out) noexcept {
    return tushalets_write_unknown_request(id, type, out.data(), out.size());
}

inline written write_reply(std::uint32_t id, std::uint8_t type, std::int32_t result, const reply_numbers &numbers,
                           byte_view run, length_view lengths, buffer out) noexcept {
    return tushalets_write_reply(id, type, result, numbers.data(), run.data(), run.size(), lengths.data(),
                                 lengths.size(), out.data(), out.size());
}

inline written write_failure(std::uint32_t id, std::uint8_t type, std::int32_t code, buffer out) noexcept {
    return tushalets_write_failure(id, type, code, out.data(), out.size());
}

inline written write_unknown_response(std::uint32_t id, buffer out) noexcept {
    return tushalets_write_unknown_response(id, out.data(), out.size());
}

} // namespace tushalets

#endif
