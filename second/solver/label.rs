//! When two labels are equal (document 02, request (vi)): "Labels 65 to 90 equal their small letters 97 to 122 wherever labels are compared."

/// A label as it is compared, and as the solver's trees carry it: the small letter of a capital, and any other as it is.
pub fn folded(label: u8) -> u8 {
    match label {
        65..=90 => label + (97 - 65),
        _ => label,
    }
}

pub fn are_equal(label: u8, other: u8) -> bool {
    folded(label) == folded(other)
}
