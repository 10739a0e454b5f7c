// The header rimopaku.hpp: the matrix of the user guide, a held row, the row form, a forest, and what is thrown.
#include <array>
#include <cstdint>
#include <iostream>
#include <vector>

#include "rimopaku.hpp"

namespace {

using Rimopaku::View;

template <typename Container> void print(const char *name, const Container &numbers)
{
    std::cout << name;
    for (auto number : numbers)
        std::cout << ' ' << number;
    std::cout << '\n';
}

template <typename Integer> void five_rows()
{
    const std::vector<Integer> a_p{0, 2, 6, 10, 12, 14}, a_i{0, 1, 0, 1, 2, 4, 1, 2, 3, 4, 2, 3, 1, 4};
    const auto found = Rimopaku::order<Integer>(5, a_p, a_i);
    print("p", found.p);
    print("p_inv", found.p_inv);
    std::cout << "lnz " << found.statistics.lnz << " jumbled " << found.jumbled << " valid " << Rimopaku::valid<Integer>(5, 5, a_p, a_i)
              << '\n';
    const auto factor = Rimopaku::columns<Integer>(5, a_p, a_i, found.p, found.statistics.lnz);
    print("ptr", factor.ptr);
    print("parent", factor.parent);
    const auto counts = Rimopaku::counts<Integer>(5, a_p, a_i, found.p);
    print("sizes", counts.sizes);
    print("parent", counts.parent);
    std::cout << "needs " << counts.needs.lnz << ' ' << counts.needs.n_mult_subs_ldl << ' ' << counts.needs.n_mult_subs_lu << ' '
              << counts.needs.d_max << '\n';
    const auto supernodes = Rimopaku::supernodes<Integer>(5, a_p, a_i, found.p);
    print("first", supernodes.first);
    print("ptr", supernodes.ptr);
    print("rows", supernodes.rows);
    print("parent", supernodes.parent);
    const auto degrees = Rimopaku::degrees<Integer>(5, a_p, a_i);
    print("degrees", degrees.degrees);
    const auto rows = Rimopaku::row_form<Integer>(5, a_p, a_i);
    print("pointers", rows.pointers);
    print("indices", rows.indices);
}

/* A path of 40 rows, each joined to one of 40 more, which stand in all columns behind it: more rows than are likely. */
template <typename Integer> void path()
{
    std::vector<Integer> a_p{0}, a_i, p;
    for (int k = 0; k < 80; k++) {
        if (k < 39)
            a_i.push_back(k + 1);
        if (k < 40)
            a_i.push_back(k + 40);
        a_p.push_back(static_cast<Integer>(a_i.size()));
        p.push_back(k);
    }
    const auto supernodes = Rimopaku::supernodes<Integer>(80, a_p, a_i, p);
    std::cout << "path " << supernodes.parent.size() << ' ' << supernodes.rows.size() << ' ' << supernodes.rows[5] << '\n';
}

void held_row()
{
    const std::array<std::int64_t, 4> a_p{{0, 1, 2, 2}};
    const std::int64_t a_i[] = {2, 2};
    const std::array<bool, 3> hold{{true, false, false}};
    const Rimopaku::Parameters parameters;
    const auto found = Rimopaku::order_holding<std::int64_t>(3, a_p, View<std::int64_t>(a_i, 2), hold, parameters);
    print("held", found.p);
}

void forest()
{
    const std::vector<int> parent{3, 4, -1, 4, -1}, nv{1, 1, 0, 1, 2}, f_size{2, 5, 0, 3, 2};
    print("postorder", Rimopaku::postorder<int>(5, parent, nv, f_size));
}

template <typename Call> void thrown(const char *name, Call call)
{
    try {
        call();
        std::cout << name << ": nothing thrown\n";
    } catch (const Rimopaku::Error &error) {
        std::cout << name << ": " << error.status() << ", " << error.what() << '\n';
    }
}

} // namespace

int main()
{
    const std::vector<int> a_p{0, 1, 2, 2}, a_i{1, 2}, none, one_p{0}, cycle{1, 0, -1}, ones{1, 1, 1};
    five_rows<std::int32_t>();
    five_rows<std::int64_t>();
    five_rows<long long>();
    path<std::int32_t>();
    path<std::int64_t>();
    held_row();
    forest();
    print("no rows", Rimopaku::order<int>(0, none, none).p);
    print("no supernodes", Rimopaku::supernodes<int>(0, none, none, none).first);
    thrown("negative", [&] { Rimopaku::order<int>(-1, a_p, a_i); });
    thrown("no pointers", [&] { Rimopaku::order<int>(3, none, a_i); });
    thrown("no order", [&] { Rimopaku::columns<int>(3, a_p, a_i, ones, 9); });
    thrown("no order to count", [&] { Rimopaku::counts<int>(3, a_p, a_i, ones); });
    thrown("no order for supernodes", [&] { Rimopaku::supernodes<int>(3, a_p, a_i, ones); });
    thrown("no room", [&] { Rimopaku::columns<int>(3, a_p, a_i, std::vector<int>{0, 1, 2}, 1); });
    thrown("a cycle", [&] { Rimopaku::postorder<int>(3, cycle, ones, ones); });
    return 0;
}
