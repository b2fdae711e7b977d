//! Expressions of every kind, each made by every record that can make it: what stands as a parameter and as an operand.

use crate::page::record::Kind::{self, Matrix, Scalar, String, Vector};

/// A kind, and records in notation that leave one expression of it.
pub type Form = (Kind, &'static str);

/// Numbers of every form, and what else is a scalar; a call's result is believed, whatever its name.
#[rustfmt::skip]
const SCALARS: &[Form] = &[
    (Scalar, "000001"), (Scalar, "000000"), (Scalar, "000101"), (Scalar, "0002"), (Scalar, "0003"), (Scalar, "0004"),
    (Scalar, "00050501"), (Scalar, "00060501"), (Scalar, "000001 08"), (Scalar, "000001 07"), (Scalar, "0002 07 08"),
    (Scalar, "000001 000002 090100"), (Scalar, "000001 000002 0908010100000000"), (Scalar, "0b0474696d6500000100"),
    (Scalar, "0202757000 0b067363616c61720100000101"), (Scalar, "0202757000 0b067363616c61720100000101 08"),
    (Scalar, "0202757000 0b067363616c61720100000101 07"), (Scalar, "0b016600000100"),
    (Scalar, "010161 0b0166010300 0101"),
];

/// `ln(0)`, which the literal exception excuses, a call of `scalar` that carries a vector and a whole limitk among them.
#[rustfmt::skip]
const VECTORS: &[Form] = &[
    (Vector, "0202757000"), (Vector, "0202757000 08"), (Vector, "0202757000 07"), (Vector, "0202757000 0501"),
    (Vector, "0202757000 060001"), (Vector, "0202757000 000001 090100"), (Vector, "000001 0202757000 090100"),
    (Vector, "0202757000 0a1b0001"), (Vector, "0202757000 0b036162730100000001"), (Vector, "000000 0b026c6e0100000001"),
    (Vector, "0002 0b036578700100000001"), (Vector, "0202757000 0b067363616c61720100000001"), (Vector, "0b016600000000"),
    (Vector, "000001 0202757000 0a1d0002"), (Vector, "000001 0202757000 0a1e0002 08"),
];

#[rustfmt::skip]
const OTHERS: &[Form] = &[
    (Matrix, "0202757000 0301"), (Matrix, "0202757000 040100"), (Matrix, "0202757000 0301 08"),
    (Matrix, "0202757000 0301 0501"), (Matrix, "0202757000 040100 060001"), (Matrix, "0b016600000200"),
    (String, "010161"), (String, "0100"), (String, "0102c3a9"), (String, "010161 08"), (String, "0b016600000300"),
];

pub fn all() -> impl Iterator<Item = &'static Form> {
    [SCALARS, VECTORS, OTHERS].into_iter().flatten()
}

/// The first form of each kind: 1, `up`, `up[1ms]`, `"a"`.
pub fn shortest() -> impl Iterator<Item = &'static Form> {
    Kind::ALL
        .into_iter()
        .filter_map(|kind| all().find(|form| form.0 == kind))
}
