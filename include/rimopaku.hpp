/* rimopaku.hpp: the library rimopaku for C++11 and later, over the calls of rimopaku.h.
 *
 * Arrays are passed as views: a std::vector, a std::array, a std::span or whatever else has data() and size(), or a pointer and a length.
 * Results are std::vectors. The integers have 32 or 64 bits and a sign. What rimopaku.h says of each call holds here too; what is wrong
 * with an input is thrown as a Rimopaku::Error, and refused memory as std::bad_alloc. The calls are proved, and this header is tested.
 *
 * rimopaku_eigen.hpp has an ordering for the solvers of Eigen. */

#ifndef RIMOPAKU_HPP
#define RIMOPAKU_HPP

#include "rimopaku.h"

#include <algorithm>
#include <cstddef>
#include <cstdint>
#include <memory>
#include <new>
#include <stdexcept>
#include <type_traits>
#include <utility>
#include <vector>

namespace Rimopaku {

/* Why a call returned nothing, other than refused memory. */
class Error : public std::runtime_error {
public:
    explicit Error(std::int32_t status) : std::runtime_error(reason(status)), status_(status) {}

    /* RIMOPAKU_INVALID, RIMOPAKU_NOT_PERMUTATION or RIMOPAKU_ROOM_TOO_SMALL. */
    std::int32_t status() const noexcept { return status_; }

private:
    static const char *reason(std::int32_t status)
    {
        switch (status) {
        case RIMOPAKU_INVALID:
            return "rimopaku: the input is not valid";
        case RIMOPAKU_NOT_PERMUTATION:
            return "rimopaku: the order does not list each row once";
        case RIMOPAKU_ROOM_TOO_SMALL:
            return "rimopaku: there are more entries than room";
        default:
            return "rimopaku: unknown status";
        }
    }

    std::int32_t status_;
};

/* An array that is only read. */
template <typename Number> class View {
public:
    View(const Number *data, std::size_t size) noexcept : data_(data), size_(size) {}

    template <typename Container, typename = decltype(std::declval<const Container &>().data(), std::declval<const Container &>().size())>
    View(const Container &container) noexcept : data_(container.data()), size_(container.size())
    {
    }

    /* Never NULL, as rimopaku.h asks. */
    const Number *data() const noexcept
    {
        static const Number none = Number();
        return data_ != nullptr ? data_ : &none;
    }
    std::size_t size() const noexcept { return size_; }

private:
    const Number *data_;
    std::size_t size_;
};

/* What a caller chooses; as it is made, the defaults. */
struct Parameters : rimopaku_parameters {
    Parameters() noexcept { rimopaku_defaults(this); }
};

/* An ordering: row p[k] is at place k, and p_inv[p[k]] is k. */
template <typename Integer> struct Permutation {
    std::vector<Integer> p, p_inv;
    rimopaku_statistics statistics;
    bool jumbled; /* whether a column was unsorted or had a duplicate */
};

/* The columns of a factor below its diagonal: column k has rows[ptr[k]] to rows[ptr[k + 1] - 1], and parent[k] is -1 if it has none. */
template <typename Integer> struct Factor {
    std::vector<Integer> ptr, rows, parent;
};

/* How many entries the columns of a factor have below its diagonal, the parents, -1 for none, and what the factor needs. */
template <typename Integer> struct Counts {
    std::vector<Integer> sizes, parent;
    rimopaku_needs needs;
};

/* The columns of a factor by supernodes, m of them: supernode s has the places first[s] to first[s + 1] - 1, below them the rows
 * rows[ptr[s]] to rows[ptr[s + 1] - 1], and the parent parent[s], -1 for none. first[m] is the number of columns. */
template <typename Integer> struct Supernodes {
    std::vector<Integer> first, ptr, rows, parent;
};

/* The degrees of the rows by the pattern of A + A', and the statistics of the pattern. */
template <typename Integer> struct Degrees {
    std::vector<Integer> degrees;
    rimopaku_statistics statistics;
};

/* The row form of a matrix: row i has the columns indices[pointers[i]] to indices[pointers[i + 1] - 1]. */
template <typename Integer> struct RowForm {
    std::vector<Integer> pointers, indices;
};

namespace detail {

/* The calls for an integer, by its size. */
template <std::size_t size> struct Calls;

template <> struct Calls<4> {
    typedef std::int32_t Integer;
    typedef std::vector<Integer> List;
    typedef View<Integer> Numbers;
    static std::int32_t order(Integer n, Numbers a_p, Numbers a_i, const rimopaku_parameters &parameters, List &p, List &p_inv,
                              rimopaku_statistics &statistics)
    {
        return rimopaku_order_i32(n, a_p.data(), a_p.size(), a_i.data(), a_i.size(), &parameters, p.data(), p.size() - 1,
                                  p_inv.data(), p_inv.size() - 1, &statistics);
    }
    static std::int32_t order_holding(Integer n, Numbers a_p, Numbers a_i, const rimopaku_parameters &parameters, View<bool> hold,
                                      List &p, List &p_inv, rimopaku_statistics &statistics)
    {
        return rimopaku_order_holding_i32(n, a_p.data(), a_p.size(), a_i.data(), a_i.size(), &parameters, hold.data(), hold.size(),
                                          p.data(), p.size() - 1, p_inv.data(), p_inv.size() - 1, &statistics);
    }
    static std::int32_t valid(Integer n_row, Integer n_col, Numbers a_p, Numbers a_i)
    {
        return rimopaku_valid_i32(n_row, n_col, a_p.data(), a_p.size(), a_i.data(), a_i.size());
    }
    static std::int32_t columns(Integer n, Numbers a_p, Numbers a_i, Numbers p, List &ptr, List &rows, List &parent)
    {
        return rimopaku_columns_i32(n, a_p.data(), a_p.size(), a_i.data(), a_i.size(), p.data(), p.size(), ptr.data(), ptr.size(),
                                    rows.data(), rows.size() - 1, parent.data(), parent.size() - 1);
    }
    static std::int32_t counts(Integer n, Numbers a_p, Numbers a_i, Numbers p, List &sizes, List &parent, rimopaku_needs &needs)
    {
        return rimopaku_counts_i32(n, a_p.data(), a_p.size(), a_i.data(), a_i.size(), p.data(), p.size(), sizes.data(), sizes.size() - 1,
                                   parent.data(), parent.size() - 1, &needs);
    }
    static std::int32_t supernodes_and_sizes(Integer n, Numbers a_p, Numbers a_i, Numbers p, Integer *first, Integer *ptr, Integer *rows,
                                             Integer *parent, rimopaku_supernode_sizes &sizes)
    {
        const std::size_t places = sizes.supernodes, room = sizes.rows;
        return rimopaku_supernodes_and_sizes_i32(n, a_p.data(), a_p.size(), a_i.data(), a_i.size(), p.data(), p.size(), first, places + 1,
                                                 ptr, places + 1, rows, room, parent, places, &sizes);
    }
    static std::int32_t aat(Integer n, Numbers a_p, Numbers a_i, List &degrees, rimopaku_statistics &statistics)
    {
        return rimopaku_aat_i32(n, a_p.data(), a_p.size(), a_i.data(), a_i.size(), degrees.data(), degrees.size() - 1, &statistics);
    }
    static std::int32_t preprocess(Integer n, Numbers a_p, Numbers a_i, List &pointers, List &indices)
    {
        return rimopaku_preprocess_i32(n, a_p.data(), a_p.size(), a_i.data(), a_i.size(), pointers.data(), pointers.size(),
                                       indices.data(), indices.size() - 1);
    }
    static std::int32_t postorder(Integer n, Numbers parent, Numbers nv, Numbers f_size, List &order)
    {
        return rimopaku_postorder_i32(n, parent.data(), parent.size(), nv.data(), nv.size(), f_size.data(), f_size.size(),
                                      order.data(), order.size() - 1);
    }
};

template <> struct Calls<8> {
    typedef std::int64_t Integer;
    typedef std::vector<Integer> List;
    typedef View<Integer> Numbers;
    static std::int32_t order(Integer n, Numbers a_p, Numbers a_i, const rimopaku_parameters &parameters, List &p, List &p_inv,
                              rimopaku_statistics &statistics)
    {
        return rimopaku_order_i64(n, a_p.data(), a_p.size(), a_i.data(), a_i.size(), &parameters, p.data(), p.size() - 1,
                                  p_inv.data(), p_inv.size() - 1, &statistics);
    }
    static std::int32_t order_holding(Integer n, Numbers a_p, Numbers a_i, const rimopaku_parameters &parameters, View<bool> hold,
                                      List &p, List &p_inv, rimopaku_statistics &statistics)
    {
        return rimopaku_order_holding_i64(n, a_p.data(), a_p.size(), a_i.data(), a_i.size(), &parameters, hold.data(), hold.size(),
                                          p.data(), p.size() - 1, p_inv.data(), p_inv.size() - 1, &statistics);
    }
    static std::int32_t valid(Integer n_row, Integer n_col, Numbers a_p, Numbers a_i)
    {
        return rimopaku_valid_i64(n_row, n_col, a_p.data(), a_p.size(), a_i.data(), a_i.size());
    }
    static std::int32_t columns(Integer n, Numbers a_p, Numbers a_i, Numbers p, List &ptr, List &rows, List &parent)
    {
        return rimopaku_columns_i64(n, a_p.data(), a_p.size(), a_i.data(), a_i.size(), p.data(), p.size(), ptr.data(), ptr.size(),
                                    rows.data(), rows.size() - 1, parent.data(), parent.size() - 1);
    }
    static std::int32_t counts(Integer n, Numbers a_p, Numbers a_i, Numbers p, List &sizes, List &parent, rimopaku_needs &needs)
    {
        return rimopaku_counts_i64(n, a_p.data(), a_p.size(), a_i.data(), a_i.size(), p.data(), p.size(), sizes.data(), sizes.size() - 1,
                                   parent.data(), parent.size() - 1, &needs);
    }
    static std::int32_t supernodes_and_sizes(Integer n, Numbers a_p, Numbers a_i, Numbers p, Integer *first, Integer *ptr, Integer *rows,
                                             Integer *parent, rimopaku_supernode_sizes &sizes)
    {
        const std::size_t places = sizes.supernodes, room = sizes.rows;
        return rimopaku_supernodes_and_sizes_i64(n, a_p.data(), a_p.size(), a_i.data(), a_i.size(), p.data(), p.size(), first, places + 1,
                                                 ptr, places + 1, rows, room, parent, places, &sizes);
    }
    static std::int32_t aat(Integer n, Numbers a_p, Numbers a_i, List &degrees, rimopaku_statistics &statistics)
    {
        return rimopaku_aat_i64(n, a_p.data(), a_p.size(), a_i.data(), a_i.size(), degrees.data(), degrees.size() - 1, &statistics);
    }
    static std::int32_t preprocess(Integer n, Numbers a_p, Numbers a_i, List &pointers, List &indices)
    {
        return rimopaku_preprocess_i64(n, a_p.data(), a_p.size(), a_i.data(), a_i.size(), pointers.data(), pointers.size(),
                                       indices.data(), indices.size() - 1);
    }
    static std::int32_t postorder(Integer n, Numbers parent, Numbers nv, Numbers f_size, List &order)
    {
        return rimopaku_postorder_i64(n, parent.data(), parent.size(), nv.data(), nv.size(), f_size.data(), f_size.size(),
                                      order.data(), order.size() - 1);
    }
};

/* What calls take in the place of an integer of this type: std::int64_t also for long and for long long. */
template <typename Integer> struct As {
    static_assert(std::is_integral<Integer>::value && std::is_signed<Integer>::value && (sizeof(Integer) == 4 || sizeof(Integer) == 8),
                  "an integer of 32 or 64 bits with a sign");
    typedef Calls<sizeof(Integer)> Call;
    typedef typename Call::Integer Number;

    static View<Number> view(View<Integer> numbers)
    {
        return View<Number>(reinterpret_cast<const Number *>(numbers.data()), numbers.size());
    }
};

inline std::int32_t checked(std::int32_t status)
{
    if (status == RIMOPAKU_OUT_OF_MEMORY)
        throw std::bad_alloc();
    if (status < 0)
        throw Error(status);
    return status;
}

/* The number of rows. */
template <typename Number> std::size_t count(Number n)
{
    if (n < 0)
        throw Error(RIMOPAKU_INVALID);
    return static_cast<std::size_t>(n);
}

/* Room for `size` numbers, with one place more, so that data() is not NULL; `cut` takes it away. */
template <typename Number> std::vector<Number> room(std::size_t size)
{
    return std::vector<Number>(size + 1);
}

template <typename Integer, typename Number> std::vector<Integer> cut(std::vector<Number> &numbers, std::size_t size)
{
    return std::vector<Integer>(numbers.begin(), numbers.begin() + static_cast<std::ptrdiff_t>(size));
}

/* Places for each column, and for as many rows as the factors of grids and of networks have below their blocks. */
inline rimopaku_supernode_sizes likely_sizes(std::size_t columns, std::size_t entries)
{
    rimopaku_supernode_sizes sizes;
    sizes.supernodes = columns;
    sizes.rows = std::min(8 * entries, 2 * entries + 16 * columns);
    return sizes;
}

} // namespace detail

/* Orders the rows of a matrix by the pattern of A + A'. */
template <typename Integer>
Permutation<Integer> order(Integer n, View<Integer> a_p, View<Integer> a_i, const rimopaku_parameters &parameters = Parameters())
{
    typedef detail::As<Integer> As;
    typedef typename As::Number Number;
    std::size_t size = detail::count(n);
    std::vector<Number> p = detail::room<Number>(size), p_inv = detail::room<Number>(size);
    Permutation<Integer> result;
    std::int32_t status = detail::checked(As::Call::order(static_cast<Number>(n), As::view(a_p), As::view(a_i), parameters, p, p_inv,
                                                          result.statistics));
    result.p = detail::cut<Integer>(p, size);
    result.p_inv = detail::cut<Integer>(p_inv, size);
    result.jumbled = status == RIMOPAKU_OK_BUT_JUMBLED;
    return result;
}

/* Orders as above, and places the rows whose mark in `hold` is true last. */
template <typename Integer>
Permutation<Integer> order_holding(Integer n, View<Integer> a_p, View<Integer> a_i, View<bool> hold,
                                   const rimopaku_parameters &parameters = Parameters())
{
    typedef detail::As<Integer> As;
    typedef typename As::Number Number;
    std::size_t size = detail::count(n);
    std::vector<Number> p = detail::room<Number>(size), p_inv = detail::room<Number>(size);
    Permutation<Integer> result;
    std::int32_t status = detail::checked(As::Call::order_holding(static_cast<Number>(n), As::view(a_p), As::view(a_i), parameters, hold, p,
                                                                  p_inv, result.statistics));
    result.p = detail::cut<Integer>(p, size);
    result.p_inv = detail::cut<Integer>(p_inv, size);
    result.jumbled = status == RIMOPAKU_OK_BUT_JUMBLED;
    return result;
}

/* RIMOPAKU_OK, RIMOPAKU_OK_BUT_JUMBLED or RIMOPAKU_INVALID. Throws nothing. */
template <typename Integer> std::int32_t valid(Integer n_row, Integer n_col, View<Integer> a_p, View<Integer> a_i)
{
    typedef detail::As<Integer> As;
    typedef typename As::Number Number;
    return As::Call::valid(static_cast<Number>(n_row), static_cast<Number>(n_col), As::view(a_p), As::view(a_i));
}

/* The columns of the factor in the order p, which has `room` entries at most. */
template <typename Integer>
Factor<Integer> columns(Integer n, View<Integer> a_p, View<Integer> a_i, View<Integer> p, std::size_t room)
{
    typedef detail::As<Integer> As;
    typedef typename As::Number Number;
    std::size_t size = detail::count(n);
    std::vector<Number> ptr = detail::room<Number>(size), rows = detail::room<Number>(room), parent = detail::room<Number>(size);
    Factor<Integer> result;
    detail::checked(As::Call::columns(static_cast<Number>(n), As::view(a_p), As::view(a_i), As::view(p), ptr, rows, parent));
    result.ptr = detail::cut<Integer>(ptr, size + 1);
    result.rows = detail::cut<Integer>(rows, static_cast<std::size_t>(ptr[size]));
    result.parent = detail::cut<Integer>(parent, size);
    return result;
}

/* The counts of that factor, without its entries. */
template <typename Integer> Counts<Integer> counts(Integer n, View<Integer> a_p, View<Integer> a_i, View<Integer> p)
{
    typedef detail::As<Integer> As;
    typedef typename As::Number Number;
    std::size_t size = detail::count(n);
    std::vector<Number> sizes = detail::room<Number>(size), parent = detail::room<Number>(size);
    Counts<Integer> result;
    detail::checked(As::Call::counts(static_cast<Number>(n), As::view(a_p), As::view(a_i), As::view(p), sizes, parent, result.needs));
    result.sizes = detail::cut<Integer>(sizes, size);
    result.parent = detail::cut<Integer>(parent, size);
    return result;
}

/* The columns of that factor by supernodes. */
template <typename Integer> Supernodes<Integer> supernodes(Integer n, View<Integer> a_p, View<Integer> a_i, View<Integer> p)
{
    typedef detail::As<Integer> As;
    typedef typename As::Number Number;
    std::unique_ptr<Number[]> first, ptr, rows, parent;
    rimopaku_supernode_sizes sizes = detail::likely_sizes(detail::count(n), a_i.size());
    std::int32_t status = RIMOPAKU_ROOM_TOO_SMALL;
    /* Where there are more rows than is likely, the first call tells the sizes, and the second one has the places. */
    for (int calls = 0; calls < 2 && status == RIMOPAKU_ROOM_TOO_SMALL; calls++) {
        first.reset(new Number[sizes.supernodes + 1]), ptr.reset(new Number[sizes.supernodes + 1]);
        rows.reset(new Number[sizes.rows]), parent.reset(new Number[sizes.supernodes]);
        status = As::Call::supernodes_and_sizes(static_cast<Number>(n), As::view(a_p), As::view(a_i), As::view(p), first.get(), ptr.get(),
                                                rows.get(), parent.get(), sizes);
    }
    detail::checked(status);
    Supernodes<Integer> result;
    result.first.assign(first.get(), first.get() + sizes.supernodes + 1);
    result.ptr.assign(ptr.get(), ptr.get() + sizes.supernodes + 1);
    result.rows.assign(rows.get(), rows.get() + sizes.rows);
    result.parent.assign(parent.get(), parent.get() + sizes.supernodes);
    return result;
}

/* The degrees of a matrix whose columns are sorted and have no duplicates. */
template <typename Integer> Degrees<Integer> degrees(Integer n, View<Integer> a_p, View<Integer> a_i)
{
    typedef detail::As<Integer> As;
    typedef typename As::Number Number;
    std::size_t size = detail::count(n);
    std::vector<Number> numbers = detail::room<Number>(size);
    Degrees<Integer> result;
    detail::checked(As::Call::aat(static_cast<Number>(n), As::view(a_p), As::view(a_i), numbers, result.statistics));
    result.degrees = detail::cut<Integer>(numbers, size);
    return result;
}

/* The row form of a matrix, sorted and without duplicates. */
template <typename Integer> RowForm<Integer> row_form(Integer n, View<Integer> a_p, View<Integer> a_i)
{
    typedef detail::As<Integer> As;
    typedef typename As::Number Number;
    std::size_t size = detail::count(n);
    std::vector<Number> pointers = detail::room<Number>(size), indices = detail::room<Number>(a_i.size());
    RowForm<Integer> result;
    detail::checked(As::Call::preprocess(static_cast<Number>(n), As::view(a_p), As::view(a_i), pointers, indices));
    result.pointers = detail::cut<Integer>(pointers, size + 1);
    result.indices = detail::cut<Integer>(indices, static_cast<std::size_t>(pointers[size]));
    return result;
}

/* The postorder of an assembly tree: the number of each element, and -1 for what is none. */
template <typename Integer>
std::vector<Integer> postorder(Integer n, View<Integer> parent, View<Integer> nv, View<Integer> f_size)
{
    typedef detail::As<Integer> As;
    typedef typename As::Number Number;
    std::size_t size = detail::count(n);
    std::vector<Number> numbers = detail::room<Number>(size);
    detail::checked(As::Call::postorder(static_cast<Number>(n), As::view(parent), As::view(nv), As::view(f_size), numbers));
    return detail::cut<Integer>(numbers, size);
}

} // namespace Rimopaku

#endif
