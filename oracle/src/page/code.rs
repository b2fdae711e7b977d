//! The codes of document 01: 1 to 16 are operators, 17 to 30 aggregators.

/// `== >= > < <= !=`
pub fn is_comparison(code: u8) -> bool {
    [3, 4, 5, 8, 9, 13].contains(&code)
}

/// `and or unless`
pub fn is_set_operator(code: u8) -> bool {
    [6, 7, 10].contains(&code)
}

/// limitk and limit_ratio.
pub fn is_limit(code: u8) -> bool {
    [29, 30].contains(&code)
}

/// bottomk, count_values, quantile, topk, limitk, limit_ratio.
pub fn has_parameter(code: u8) -> bool {
    [18, 20, 24, 28, 29, 30].contains(&code)
}
