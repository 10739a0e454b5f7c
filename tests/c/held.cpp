// From C++11: the matrix of the user guide through SuiteSparse's names, and a matrix whose row 0 is held last.
#include <cstdint>
#include <iostream>
#include <vector>

#include "amd.h"

namespace {

void print(const char *name, const std::vector<std::int64_t> &numbers)
{
    std::cout << name;
    for (std::int64_t number : numbers)
        std::cout << ' ' << number;
    std::cout << '\n';
}

void order_five_rows()
{
    const std::vector<int> a_p{0, 2, 6, 10, 12, 14}, a_i{0, 1, 0, 1, 2, 4, 1, 2, 3, 4, 2, 3, 1, 4};
    std::vector<int> p(5);
    double info[AMD_INFO];
    const int status = amd_order(5, a_p.data(), a_i.data(), p.data(), nullptr, info);
    std::cout << "status " << status << " lnz " << info[AMD_LNZ] << '\n';
    print("P", std::vector<std::int64_t>(p.begin(), p.end()));
}

void hold_a_row()
{
    const std::vector<std::int64_t> a_p{0, 1, 2, 2}, a_i{2, 2};
    const bool hold[] = {true, false, false};
    std::vector<std::int64_t> p(3), p_inv(3);
    rimopaku_parameters parameters;
    rimopaku_statistics told;
    rimopaku_defaults(&parameters);
    const std::int32_t status = rimopaku_order_holding_i64(3, a_p.data(), a_p.size(), a_i.data(), a_i.size(), &parameters, hold, 3, p.data(),
                                                           p.size(), p_inv.data(), p_inv.size(), &told);
    std::cout << "status " << status << " lnz " << told.lnz << " ldl " << told.n_mult_subs_ldl << " lu " << told.n_mult_subs_lu << " d_max "
              << told.d_max << " n_dense " << told.n_dense << '\n';
    print("P", p);
    print("PInv", p_inv);
}

} // namespace

int main()
{
    order_five_rows();
    hold_a_row();
}
