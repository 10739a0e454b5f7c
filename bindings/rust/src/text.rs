//! The texts of the crate `amd` 0.2.2: what a caller chooses, and what an ordering tells. Called by users.

#![cfg(feature = "std")]

use crate::order::{Control, Info, Status};
use core::fmt::{self, Display, Formatter};
use core::mem::size_of;
use std::print;

/// Prints what a caller chooses to standard output.
pub fn control(control: &Control) {
    print!("{}", ControlText(control));
}

/// Prints what an ordering tells to standard output.
pub fn info(info: &Info) {
    print!("{}", InfoText(info));
}

struct ControlText<'a>(&'a Control);

impl Display for ControlText<'_> {
    fn fmt(&self, out: &mut Formatter<'_>) -> fmt::Result {
        let Control { dense, aggressive } = self.0;
        writeln!(out, "\nAMD: approximate minimum degree ordering")?;
        writeln!(out, "    dense row parameter: {dense}")?;
        if *dense < 0.0 {
            writeln!(out, "    no rows treated as dense")?;
        } else {
            writeln!(out, "    (rows with more than max ({dense} * sqrt(n), 16) entries are")?;
            writeln!(out, "    considered \"dense\", and placed last in output permutation)")?;
        }
        writeln!(out, "    aggressive absorption:  {}", if *aggressive { "yes" } else { "no" })?;
        writeln!(out, "    size of AMD integer: {}\n", size_of::<isize>())
    }
}

struct InfoText<'a>(&'a Info);

/// A line of a label and a value, which begins in a column of its own.
fn line(out: &mut Formatter<'_>, label: &str, value: &dyn Display) -> fmt::Result {
    writeln!(out, "    {label:<52}{value}")
}

impl InfoText<'_> {
    fn matrix(&self, out: &mut Formatter<'_>) -> fmt::Result {
        let info = self.0;
        let status = match info.status {
            Status::OK => "OK",
            Status::Invalid => "invalid matrix",
            Status::OkButJumbled => "OK, but jumbled",
        };
        line(out, "status:", &status)?;
        line(out, "n, dimension of A:", &info.n)?;
        line(out, "nz, number of nonzeros in A:", &info.nz)?;
        line(out, "symmetry of A:", &info.symmetry)?;
        line(out, "number of nonzeros on diagonal:", &info.nz_diag)?;
        line(out, "nonzeros in pattern of A+A' (excl. diagonal):", &info.nz_a_plus_at)?;
        line(out, "# dense rows/columns of A+A':", &info.n_dense)?;
        line(out, "# of memory compactions:", &info.n_cmp_a)
    }

    fn factor(&self, out: &mut Formatter<'_>) -> fmt::Result {
        let info = self.0;
        line(out, "nonzeros in L (excluding diagonal):", &info.lnz)?;
        line(out, "nonzeros in L (including diagonal):", &(info.n as u128 + info.lnz as u128))?;
        line(out, "# divide operations for LDL' or LU:", &info.n_div)?;
        line(out, "# multiply-subtract operations for LDL':", &info.n_mult_subs_ldl)?;
        line(out, "# multiply-subtract operations for LU:", &info.n_mult_subs_lu)?;
        line(out, "max nz. in any column of L (incl. diagonal):", &info.d_max)
    }

    fn totals(&self, out: &mut Formatter<'_>) -> fmt::Result {
        // The sums of the crate overflow where these do not.
        let [n, divisions, ldl, lu] =
            [self.0.n, self.0.n_div, self.0.n_mult_subs_ldl, self.0.n_mult_subs_lu].map(|number| number as u128);
        line(out, "chol flop count for real A, sqrt counted as 1 flop:", &(n + divisions + 2 * ldl))?;
        line(out, "LDL' flop count for real A:", &(divisions + 2 * ldl))?;
        line(out, "LDL' flop count for complex A:", &(9 * divisions + 8 * ldl))?;
        line(out, "LU flop count for real A (with no pivoting):", &(divisions + 2 * lu))?;
        line(out, "LU flop count for complex A (with no pivoting):", &(9 * divisions + 8 * lu))
    }
}

impl Display for InfoText<'_> {
    fn fmt(&self, out: &mut Formatter<'_>) -> fmt::Result {
        writeln!(out, "\nAMD results:")?;
        self.matrix(out)?;
        writeln!(out, "\n    The following approximate statistics are for a subsequent")?;
        writeln!(out, "    factorization of A(P,P) + A(P,P)'.  They are slight upper")?;
        writeln!(out, "    bounds if there are no dense rows/columns in A+A', and become")?;
        writeln!(out, "    looser if dense rows/columns exist.\n")?;
        self.factor(out)?;
        writeln!(out)?;
        self.totals(out)?;
        writeln!(out)
    }
}
