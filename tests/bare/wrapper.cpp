// The header rimopaku_bare.hpp in both widths: worked matrices in a static workspace and in bytes elsewhere, arrays of C, pointers and what
// has data() and size(), and each fault. No C library and no C++ library are needed: start.c stands in their place. The exit status is 0,
// or the number of the line that found another result, cut to 255.
#include "rimopaku_bare.hpp"

namespace {

using Rimopaku::Slice;
using Rimopaku::Status;

#define CHECK(holds) \
    do { \
        if (!(holds)) \
            return __LINE__; \
    } while (0)

// What a library for bare machines has for arrays.
template <typename Number, size_t count> struct Array {
    Number numbers[count];

    Number *data() { return numbers; }
    const Number *data() const { return numbers; }
    size_t size() const { return count; }
};

template <typename Number, size_t count> bool equal(const Number (&one)[count], const Number (&other)[count])
{
    for (size_t k = 0; k < count; k++)
        if (one[k] != other[k])
            return false;
    return true;
}

// The matrix of five rows of the README, an order of it, and its factor: a column for each edge.
template <typename Integer> struct Five {
    static constexpr Integer a_p[] = {0, 2, 6, 10, 12, 14}, a_i[] = {0, 1, 0, 1, 2, 4, 1, 2, 3, 4, 2, 3, 1, 4};
    static constexpr Integer order[] = {0, 3, 2, 4, 1}, places[] = {0, 4, 2, 1, 3};
    static constexpr Integer begins[] = {0, 1, 2, 4, 5, 5}, entries[] = {4, 2, 3, 4, 4};
    static constexpr Integer parents[] = {4, 2, 3, 4, -1}, sizes[] = {1, 1, 2, 1, 0};
};
template <typename Integer> constexpr Integer Five<Integer>::a_p[];
template <typename Integer> constexpr Integer Five<Integer>::a_i[];
template <typename Integer> constexpr Integer Five<Integer>::order[];
template <typename Integer> constexpr Integer Five<Integer>::places[];
template <typename Integer> constexpr Integer Five<Integer>::begins[];
template <typename Integer> constexpr Integer Five<Integer>::entries[];
template <typename Integer> constexpr Integer Five<Integer>::parents[];
template <typename Integer> constexpr Integer Five<Integer>::sizes[];

template <typename Integer, typename Lender> int orders(Lender &workspace)
{
    typedef Five<Integer> five;
    rimopaku_statistics told;
    Integer p[5], p_inv[5];

    CHECK(workspace.order(5, five::a_p, five::a_i, p, p_inv, told) == Status::Ok);
    CHECK(equal(p, five::order) && equal(p_inv, five::places));
    CHECK(told.n == 5 && told.nz == 14 && !told.symmetry && told.nz_diag == 5 && told.nz_a_plus_at == 10 && told.lnz == 5);
    return 0;
}

template <typename Integer, typename Lender> int factors(Lender &workspace)
{
    typedef Five<Integer> five;
    rimopaku_needs needs;
    Integer sizes[5], parent[5], ptr[6], rows[5], up[5];

    CHECK(workspace.counts(5, five::a_p, five::a_i, five::order, sizes, parent, needs) == Status::Ok);
    CHECK(equal(sizes, five::sizes) && equal(parent, five::parents));
    CHECK(needs.lnz == 5 && needs.n_mult_subs_ldl == 6 && needs.n_mult_subs_lu == 7 && needs.d_max == 3);
    CHECK(workspace.columns(5, five::a_p, five::a_i, five::order, ptr, rows, up) == Status::Ok);
    CHECK(equal(ptr, five::begins) && equal(rows, five::entries) && equal(up, five::parents));
    return 0;
}

// Two rows in one column, out of order: pointers and lengths, classes with data() and size(), and other parameters.
template <typename Integer, typename Lender> int slices(Lender &workspace)
{
    const Array<Integer, 3> a_p = {{0, 2, 2}};
    Integer a_i[] = {1, 0, 9}, p[3] = {-7, -7, -7};
    Array<Integer, 2> p_inv = {{-7, -7}};
    const Array<bool, 2> hold = {{true, false}};
    rimopaku_parameters parameters = Rimopaku::default_parameters();
    rimopaku_statistics told;

    CHECK(parameters.dense == 10000 && parameters.aggressive);
    parameters.aggressive = false;
    CHECK(workspace.order_holding(2, a_p, {a_i, 2}, hold, {p, 2}, p_inv, told, parameters) == Status::OkButJumbled);
    CHECK(p[0] == 1 && p[1] == 0 && p[2] == -7 && p_inv.numbers[0] == 1 && p_inv.numbers[1] == 0 && told.n_dense == 1);
    CHECK(!is_error(Status::OkButJumbled) && is_error(Status::Invalid) && describe(Status::OutOfMemory)[0] == 't');
    CHECK(Slice<Integer>(nullptr, 0).data() != nullptr);
    return 0;
}

template <typename Integer, typename Lender> int faults(Lender &workspace)
{
    typedef Five<Integer> five;
    const Integer wrong[] = {0, 1, 2, 3, 3};
    Integer p[5] = {-7, -7, -7, -7, -7}, q[5] = {-7, -7, -7, -7, -7}, ptr[6], rows[4];
    rimopaku_statistics told;
    rimopaku_needs needs;

    CHECK(workspace.order(5, five::a_p, Slice<const Integer>(five::a_i, 13), p, q, told) == Status::Invalid);
    CHECK(workspace.order(5, five::a_p, five::a_i, p, Slice<Integer>(q, 4), told) == Status::Invalid);
    CHECK(workspace.counts(5, five::a_p, five::a_i, wrong, p, q, needs) == Status::NotPermutation);
    CHECK(workspace.columns(5, five::a_p, five::a_i, five::order, ptr, rows, q) == Status::RoomTooSmall);
    for (int k = 0; k < 5; k++)
        CHECK(p[k] == -7 && q[k] == -7);
    return 0;
}

// Bytes elsewhere that begin at any address; none, and a byte less than an ordering takes.
template <typename Integer> int elsewhere()
{
    typedef Five<Integer> five;
    constexpr size_t bytes = Rimopaku::workspace_bytes(5, 14);
    static unsigned char memory[bytes + 32];
    rimopaku_statistics told;
    Integer p[5], p_inv[5];

    for (size_t begin = 0; begin <= 17; begin++) {
        Rimopaku::Workspace workspace(memory + begin, bytes + 15);
        int line = orders<Integer>(workspace);
        CHECK(workspace.block().size == bytes);
        if (line != 0)
            return line;
    }
    constexpr size_t taken = Rimopaku::order_bytes(5, 14);
    Rimopaku::Workspace none(memory, 0), all(memory);
    Rimopaku::Workspace enough(all.block().start, taken), few(all.block().start, taken - 1);
    CHECK(taken == rimopaku_workspace_bytes_i64(5, 14));
    CHECK(Rimopaku::counts_bytes(5, 14) == rimopaku_counts_bytes_i32(5, 14));
    CHECK(Rimopaku::columns_bytes(5, 14) == rimopaku_columns_bytes_i64(5, 14));
    CHECK(none.order(5, five::a_p, five::a_i, p, p_inv, told) == Status::OutOfMemory);
    CHECK(few.order(5, five::a_p, five::a_i, p, p_inv, told) == Status::OutOfMemory);
    CHECK(orders<Integer>(enough) == 0);
    return factors<Integer>(all);
}

template <typename Integer> int in_static_memory()
{
    typedef Rimopaku::StaticWorkspace<5, 14> Lender;
    static Lender workspace;
    int (*const tests[])(Lender &) = {orders<Integer>, factors<Integer>, slices<Integer>, faults<Integer>, orders<Integer>};
    static_assert(sizeof workspace == Rimopaku::workspace_bytes(5, 14), "its bytes and nothing else");
    for (auto test : tests) {
        int line = test(workspace);
        if (line != 0)
            return line;
    }
    return 0;
}

} // namespace

// Where there is no C library, a compiler need not know this name.
#if !__STDC_HOSTED__
extern "C"
#endif
    int main()
{
    int (*const tests[])() = {in_static_memory<int32_t>, in_static_memory<int64_t>, elsewhere<int32_t>, elsewhere<int64_t>};
    for (auto test : tests) {
        int line = test();
        if (line != 0)
            return line < 255 ? line : 255;
    }
    return 0;
}
