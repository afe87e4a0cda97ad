//! The reader of constants: texts of its form and of others, floats written in several ways, and values at the bounds.

use weigher::{Refusal, bits, constant};

/// What is read, as a pattern, and that both functions agree.
fn read(text: &[u8]) -> Result<u64, Refusal> {
    let pattern = bits::constant(text);
    assert_eq!(constant(text).map(f64::to_bits), pattern);
    pattern
}

#[test]
fn texts_of_the_form() {
    for (text, float) in [
        ("0x1.p0", 1.0),
        ("0x.8p0", 0.5),
        ("+0x00.00P-0", 0.0),
        ("-0x0p999999999999999999999", -0.0),
        ("-0x.0p-999999999999999999999", -0.0),
        ("0x10000000000000000000000000p-100", 1.0),
        ("0x1.62e42fefa39efp-1", std::f64::consts::LN_2),
        ("0X1.8P+1", 3.0),
        ("-0xaBcDeFp0", -11259375.0),
        ("0x1p0000000000000000000000000000000000000010", 1024.0),
        ("0x3p-0", 3.0),
    ] {
        assert_eq!(read(text.as_bytes()), Ok(float.to_bits()), "{text}");
    }
}

#[test]
fn texts_of_other_forms() {
    for text in [
        "",
        "0x",
        "0xp0",
        "0x.p0",
        "0x1",
        "0x1.8",
        "0x1p",
        "0x1p+",
        "0x1p-",
        "0x1.0.0p0",
        "0x1p0 ",
        " 0x1p0",
        "0x1p0x",
        "1p0",
        "x1p0",
        "--0x1p0",
        "+-0x1p0",
        "0x-1p0",
        "0x1p+-1",
        "0x1p1.0",
        "0x1g0p0",
        "0x1p0p0",
        "0x1pa",
        "0x0x1p0",
        "1.5",
        "1e3",
        "inf",
        "nan",
        "0x1_0p0",
        "\u{ff10}x1p0",
    ] {
        assert_eq!(read(text.as_bytes()), Err(Refusal::BadText), "{text}");
    }
    assert_eq!(read(b"0x1p0\0"), Err(Refusal::BadText));
    assert_eq!(read(b"0x1p0\xff"), Err(Refusal::BadText));
}

/// A text of no such form is refused for that, whatever its value would be.
#[test]
fn the_form_is_tried_first() {
    for text in ["0x1.00000000000001p0x", "0x1p1024 ", "0x1p-1075."] {
        assert_eq!(read(text.as_bytes()), Err(Refusal::BadText), "{text}");
    }
}

#[test]
fn values_at_the_bounds() {
    for (text, pattern) in [
        ("0x1.fffffffffffffp1023", 0x7fefffffffffffff),
        ("0x.8p1024", 0x7fe0000000000000),
        ("0x1p-1022", 0x0010000000000000),
        ("0x.fffffffffffffp-1022", 0x000fffffffffffff),
        ("0x1p-1074", 0x0000000000000001),
        ("0x6p-1075", 0x0000000000000003),
        ("0x1fffffffffffffp0", 0x433fffffffffffff),
        ("0x3ffffffffffffep0", 0x434fffffffffffff),
    ] {
        assert_eq!(read(text.as_bytes()), Ok(pattern), "{text}");
    }
    for text in [
        "0x1.fffffffffffff8p1023",
        "0x1p1024",
        "0x1p-1075",
        "0x3p-1075",
        "0x1.4p-1073",
        "0x.fffffffffffff8p-1022",
        "0x3fffffffffffffp0",
        "0x1.00000000000008p0",
        "0x1p4294967296",
        "0x1p-18446744073709551616",
        "0x1p340282366920938463463374607431768211456",
    ] {
        assert_eq!(read(text.as_bytes()), Err(Refusal::Inexact), "{text}");
    }
}

/// Digits by the thousand, and exponents that make up for them.
#[test]
fn long_texts() {
    for n in [100, 1000, 30_000] {
        let zeros = "0".repeat(n);
        let large = 4 * n;
        let texts = [
            format!("0x{zeros}1.8{zeros}p1"),
            format!("0x.{zeros}3p+{}", large + 4),
            format!("0x3{zeros}p-{large}"),
            format!("0x3p-{zeros}"),
        ];
        for text in texts {
            assert_eq!(read(text.as_bytes()), Ok(3f64.to_bits()), "{n}");
        }
        let texts = [
            format!("0x3{zeros}.8p-{large}"),
            format!("0x1p9{zeros}"),
            format!("0x1p-9{zeros}"),
        ];
        for text in texts {
            assert_eq!(read(text.as_bytes()), Err(Refusal::Inexact), "{n}");
        }
    }
}

/// Every power of two, as C's %a writes it and with its exponent moved into the digits.
#[test]
fn powers_of_two() {
    for n in -1074..=1023 {
        let pattern = if n < -1022 {
            1 << (n + 1074)
        } else {
            ((n + 1023) as u64) << 52
        };
        for text in [
            format!("0x1p{n:+}"),
            format!("0x.08p{}", n + 5),
            format!("0x400p{}", n - 10),
        ] {
            assert_eq!(read(text.as_bytes()), Ok(pattern), "{text}");
        }
        let text = format!("-0x1.00000000000004p{n}");
        assert_eq!(read(text.as_bytes()), Err(Refusal::Inexact), "{text}");
    }
}
