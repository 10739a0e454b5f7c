/* rimopaku_bare.hpp: the calls of rimopaku_bare.h for C++11 and later. Nothing is taken from a heap, nothing is thrown, and no header of
 * the C++ library is read: it compiles with -ffreestanding -fno-exceptions -fno-rtti too.
 *
 * A workspace has the bytes that its calls take their memory from. Of a Workspace they lie elsewhere, and a StaticWorkspace has them in
 * itself, as many as are enough for so many rows and entries:
 *
 *     static Rimopaku::StaticWorkspace<5, 14> workspace;
 *     ...
 *     Rimopaku::Status status = workspace.order(5, a_p, a_i, p, p_inv, statistics);
 *
 * Arrays are passed as slices: an array of C, whatever has data() and size(), such as a std::array or a std::span, or a pointer and a
 * length. Results are written into the caller's arrays, and what the input is, or what is wrong with it, is returned. What rimopaku_bare.h
 * says of each call holds here too, but that a pointer may be NULL where the length is 0. The integers are int32_t or int64_t, the same in
 * all arrays of a call. Two calls on one workspace may not run at the same time. The calls are proved, and this header is tested.
 *
 * rimopaku.hpp has the calls with malloc, over vectors; a program may include both. */

#ifndef RIMOPAKU_BARE_HPP
#define RIMOPAKU_BARE_HPP

#include "rimopaku_bare.h"

namespace Rimopaku {

/* What a call returns: the numbers of rimopaku.h. From C++17 on a compiler warns where it is not looked at. */
#if __cplusplus >= 201703L
enum class [[nodiscard]] Status : int32_t {
#else
enum class Status : int32_t {
#endif
    Ok = RIMOPAKU_OK,                            /* each column is sorted and has no duplicates */
    OkButJumbled = RIMOPAKU_OK_BUT_JUMBLED,      /* a column is unsorted or has a duplicate; this is no error */
    OutOfMemory = RIMOPAKU_OUT_OF_MEMORY,        /* the workspace has too few bytes */
    Invalid = RIMOPAKU_INVALID,                  /* the input is no column form, or an array has the wrong length */
    NotPermutation = RIMOPAKU_NOT_PERMUTATION,   /* the order does not list each row once */
    RoomTooSmall = RIMOPAKU_ROOM_TOO_SMALL       /* the factor has more entries than `rows` has places, or than the integers count */
};

/* Whether there is no answer. */
constexpr bool is_error(Status status) noexcept
{
    return static_cast<int32_t>(status) < 0;
}

/* A status in words, for a person who reads a log. */
inline const char *describe(Status status) noexcept
{
    switch (status) {
    case Status::Ok:
        return "done";
    case Status::OkButJumbled:
        return "done; a column is unsorted or has a duplicate";
    case Status::OutOfMemory:
        return "the workspace has too few bytes";
    case Status::Invalid:
        return "the input is not valid";
    case Status::NotPermutation:
        return "the order does not list each row once";
    case Status::RoomTooSmall:
        return "there are more entries than room";
    }
    return "unknown status";
}

/* The parameters that most callers want. */
inline rimopaku_parameters default_parameters() noexcept
{
    rimopaku_parameters parameters;
    parameters.dense = 10000;
    parameters.aggressive = true;
    return parameters;
}

/* Numbers that lie one behind the other: Slice<const int32_t> is only read, Slice<int32_t> is written. */
template <typename Number> class Slice {
public:
    constexpr Slice(Number *data, size_t size) noexcept : data_(data), size_(size) {}

    template <size_t count> constexpr Slice(Number (&array)[count]) noexcept : data_(array), size_(count) {}

    template <typename Container, typename = decltype(static_cast<Number *>(static_cast<Container *>(nullptr)->data()),
                                                      static_cast<Container *>(nullptr)->size())>
    Slice(Container &container) noexcept : data_(container.data()), size_(container.size())
    {
    }

    template <typename Container, typename = decltype(static_cast<Number *>(static_cast<const Container *>(nullptr)->data()),
                                                      static_cast<const Container *>(nullptr)->size())>
    Slice(const Container &container) noexcept : data_(container.data()), size_(container.size())
    {
    }

    /* Never NULL, as rimopaku.h asks. */
    Number *data() const noexcept
    {
        static Number none = Number();
        return data_ != nullptr ? data_ : &none;
    }
    constexpr size_t size() const noexcept { return size_; }

private:
    Number *data_;
    size_t size_;
};

typedef Slice<const int32_t> Numbers32;
typedef Slice<const int64_t> Numbers64;
typedef Slice<int32_t> Places32;
typedef Slice<int64_t> Places64;
typedef Slice<const bool> Marks;

/* How many bytes are enough for each matrix with at most so many rows and entries, in either width: for an ordering, for the counts, for
 * the columns, and for each of them. The library's own numbers are proved, as rimopaku_bare.h says, and that these are the same is tested.
 * A Workspace takes 15 more where its bytes may begin at any address. */
constexpr size_t order_bytes(size_t rows, size_t entries) noexcept
{
    return RIMOPAKU_ORDER_BYTES_I32(rows, entries);
}

constexpr size_t counts_bytes(size_t rows, size_t entries) noexcept
{
    return RIMOPAKU_COUNTS_BYTES_I32(rows, entries);
}

constexpr size_t columns_bytes(size_t rows, size_t entries) noexcept
{
    return RIMOPAKU_COLUMNS_BYTES_I32(rows, entries);
}

namespace detail {

constexpr size_t larger(size_t one, size_t other) noexcept
{
    return one > other ? one : other;
}

} // namespace detail

constexpr size_t workspace_bytes(size_t rows, size_t entries) noexcept
{
    return detail::larger(order_bytes(rows, entries), detail::larger(counts_bytes(rows, entries), columns_bytes(rows, entries)));
}

/* The calls, for a class that has a block: rimopaku.h says what each returns. */
template <typename Lender> class Calls {
public:
    /* Orders the rows of a matrix by the pattern of A + A'. p and p_inv have n places. */
    Status order(int32_t n, Numbers32 a_p, Numbers32 a_i, Places32 p, Places32 p_inv, rimopaku_statistics &statistics,
                 const rimopaku_parameters &parameters = default_parameters()) noexcept
    {
        return Status(rimopaku_order_within_i32(block(), n, a_p.data(), a_p.size(), a_i.data(), a_i.size(), &parameters, p.data(), p.size(),
                                                p_inv.data(), p_inv.size(), &statistics));
    }

    /* Orders as above, and places the rows whose mark in `hold` is true last. */
    Status order_holding(int32_t n, Numbers32 a_p, Numbers32 a_i, Marks hold, Places32 p, Places32 p_inv, rimopaku_statistics &statistics,
                         const rimopaku_parameters &parameters = default_parameters()) noexcept
    {
        return Status(rimopaku_order_holding_within_i32(block(), n, a_p.data(), a_p.size(), a_i.data(), a_i.size(), &parameters,
                                                        hold.data(), hold.size(), p.data(), p.size(), p_inv.data(), p_inv.size(),
                                                        &statistics));
    }

    /* How many entries the columns of the factor have in the order p, the parents, and what it needs. sizes and parent have n places. */
    Status counts(int32_t n, Numbers32 a_p, Numbers32 a_i, Numbers32 p, Places32 sizes, Places32 parent, rimopaku_needs &needs) noexcept
    {
        return Status(rimopaku_counts_within_i32(block(), n, a_p.data(), a_p.size(), a_i.data(), a_i.size(), p.data(), p.size(),
                                                 sizes.data(), sizes.size(), parent.data(), parent.size(), &needs));
    }

    /* The columns of that factor. ptr has n + 1 places, parent has n, and rows has needs.lnz or more. */
    Status columns(int32_t n, Numbers32 a_p, Numbers32 a_i, Numbers32 p, Places32 ptr, Places32 rows, Places32 parent) noexcept
    {
        return Status(rimopaku_columns_within_i32(block(), n, a_p.data(), a_p.size(), a_i.data(), a_i.size(), p.data(), p.size(),
                                                  ptr.data(), ptr.size(), rows.data(), rows.size(), parent.data(), parent.size()));
    }

    /* The same for int64_t. */
    Status order(int64_t n, Numbers64 a_p, Numbers64 a_i, Places64 p, Places64 p_inv, rimopaku_statistics &statistics,
                 const rimopaku_parameters &parameters = default_parameters()) noexcept
    {
        return Status(rimopaku_order_within_i64(block(), n, a_p.data(), a_p.size(), a_i.data(), a_i.size(), &parameters, p.data(), p.size(),
                                                p_inv.data(), p_inv.size(), &statistics));
    }

    Status order_holding(int64_t n, Numbers64 a_p, Numbers64 a_i, Marks hold, Places64 p, Places64 p_inv, rimopaku_statistics &statistics,
                         const rimopaku_parameters &parameters = default_parameters()) noexcept
    {
        return Status(rimopaku_order_holding_within_i64(block(), n, a_p.data(), a_p.size(), a_i.data(), a_i.size(), &parameters,
                                                        hold.data(), hold.size(), p.data(), p.size(), p_inv.data(), p_inv.size(),
                                                        &statistics));
    }

    Status counts(int64_t n, Numbers64 a_p, Numbers64 a_i, Numbers64 p, Places64 sizes, Places64 parent, rimopaku_needs &needs) noexcept
    {
        return Status(rimopaku_counts_within_i64(block(), n, a_p.data(), a_p.size(), a_i.data(), a_i.size(), p.data(), p.size(),
                                                 sizes.data(), sizes.size(), parent.data(), parent.size(), &needs));
    }

    Status columns(int64_t n, Numbers64 a_p, Numbers64 a_i, Numbers64 p, Places64 ptr, Places64 rows, Places64 parent) noexcept
    {
        return Status(rimopaku_columns_within_i64(block(), n, a_p.data(), a_p.size(), a_i.data(), a_i.size(), p.data(), p.size(),
                                                  ptr.data(), ptr.size(), rows.data(), rows.size(), parent.data(), parent.size()));
    }

private:
    rimopaku_block block() noexcept { return static_cast<Lender *>(this)->block(); }
};

/* Bytes that lie elsewhere. */
class Workspace : public Calls<Workspace> {
public:
    Workspace(void *memory, size_t bytes) noexcept : block_(rimopaku_block_in(memory, bytes)) {}

    template <size_t bytes> explicit Workspace(unsigned char (&memory)[bytes]) noexcept : block_(rimopaku_block_in(memory, bytes)) {}

    rimopaku_block block() const noexcept { return block_; }

private:
    rimopaku_block block_;
};

/* Bytes of its own, as many as are enough for each call with at most so many rows and entries. A static variable of it takes no place in
 * the program's file, and nothing runs to make it. */
template <size_t rows, size_t entries> class StaticWorkspace : public Calls<StaticWorkspace<rows, entries>> {
public:
    StaticWorkspace() = default;
    StaticWorkspace(const StaticWorkspace &) = delete;
    StaticWorkspace &operator=(const StaticWorkspace &) = delete;

    rimopaku_block block() noexcept { return rimopaku_block_in(memory_, sizeof memory_); }

private:
    alignas(16) unsigned char memory_[workspace_bytes(rows, entries)];
};

} // namespace Rimopaku

#endif
