//! Fields packed most significant bit first, without gaps, by way of binary digits as text.

/// The fields of these widths that the bytes hold; together the widths are all their bits.
pub fn unpack(bytes: &[u8], widths: &[usize]) -> Vec<i64> {
    let digits: String = bytes.iter().map(|byte| format!("{byte:08b}")).collect();
    let mut rest = digits.as_str();
    let mut fields = Vec::new();
    for &width in widths {
        let (field, after) = rest.split_at(width);
        fields.push(i64::from_str_radix(field, 2).expect("binary digits"));
        rest = after;
    }
    assert!(rest.is_empty(), "bits that belong to no field");
    fields
}

/// The bytes that hold these fields in these widths.
pub fn pack(fields: &[i64], widths: &[usize]) -> Vec<u8> {
    assert_eq!(fields.len(), widths.len());
    let mut digits = String::new();
    for (&field, &width) in fields.iter().zip(widths) {
        let text = format!("{field:0width$b}");
        assert!(field >= 0 && text.len() == width, "{field} does not fit {width} bits");
        digits += &text;
    }
    assert_eq!(digits.len() % 8, 0, "a byte is not filled");
    (0..digits.len()).step_by(8).map(|at| u8::from_str_radix(&digits[at..at + 8], 2).expect("eight digits")).collect()
}
