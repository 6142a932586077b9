//! DIMACS texts and tokens, byte by byte.

use second::dimacs::{header, read_dimacs, token_step, Header, Token};
use second::random::Random;
use second::random_texts::headless;
use second::refusal::Refusal;

/// What the reader answers: V and the numbers, or the refusal's number.
fn read(text: &[u8]) -> Result<(u32, Vec<i32>), u32> {
    let mut numbers = vec![7; 8192];
    match read_dimacs(text, &mut numbers) {
        Ok(reading) => {
            assert!(numbers[reading.count..].iter().all(|&x| x == 7));
            Ok((reading.variables, numbers[..reading.count].to_vec()))
        }
        Err(refusal) => {
            assert!(numbers.iter().all(|&x| x == 7));
            Err(refusal.number())
        }
    }
}

#[test]
fn headers_in_form() {
    for line in ["p cnf 24 1024", "p   cnf  24   1024 \t \t", "c\nc p cnf 1 1\ncnf\np cnf 24 1024"] {
        for end in ["", "\r", "\n", "\r\n", "\n1 0", "\r\n1 0"] {
            let text = format!("{line}{end}");
            let body = text.len() - if end.ends_with('0') { 3 } else { 0 };
            assert_eq!(header(text.as_bytes()), Some(Header { variables: 24, clauses: 1024, body }), "{text:?}");
        }
    }
    assert_eq!(read(b"p cnf 1 0"), Ok((1, vec![])));
    assert_eq!(read(b"p cnf 1 0\r"), Ok((1, vec![])));
}

#[test]
fn headers_not_in_form() {
    let mut random = Random::seeded(1);
    for _ in 0..500 {
        let text = headless(&mut random);
        assert_eq!(read(&text), Err(11), "{:?}", String::from_utf8_lossy(&text));
    }
}

#[test]
fn bodies_in_form() {
    assert_eq!(read(b"p cnf 24 3\n\t24 -24\r\n10 0\n\n0 -1\n0"), Ok((24, vec![24, -24, 10, 0, 0, -1, 0])));
    assert_eq!(read(b"p cnf 2 1\n1 2 0\n%\n0\n\n"), Ok((2, vec![1, 2, 0])));
    assert_eq!(read(b"p cnf 2 1\n1 2 0 % +x \xff"), Ok((2, vec![1, 2, 0])));
    assert_eq!(read(b"p cnf 2 0\n%"), Ok((2, vec![])));
}

#[test]
fn bodies_not_in_form() {
    for token in
        ["3", "-3", "+1", "-0", "00", "01", "-01", "--1", "-", "1-", "x", "%%", "0%", "%0", "c", "p", "1\0", "1\x0c", "4294967297", "1.0"]
    {
        assert_eq!(read(format!("p cnf 2 1\n1 0\n{token}\n").as_bytes()), Err(12), "{token:?}");
        assert_eq!(read(format!("p cnf 2 1\n{token} 0 0\n").as_bytes()), Err(12), "{token:?}");
    }
    assert_eq!(read(b"p cnf 2 1\n1 0\n\xc2\xa0\n"), Err(12));
    assert_eq!(read(b"p cnf 2 1\nc note\n1 0\n"), Err(12));
}

#[test]
fn clauses_not_as_counted() {
    for body in ["", "1", "1 0 2", "1 0 2 0", "1 %", "1 0 2 %", "1 0 0"] {
        assert_eq!(read(format!("p cnf 2 1\n{body}").as_bytes()), Err(13), "{body:?}");
    }
}

#[test]
fn rooms_of_numbers() {
    let mut numbers = [7; 3];
    assert_eq!(read_dimacs(b"p cnf 2 1\n1 2 0", &mut numbers[..2]), Err(Refusal::Number(15)));
    assert_eq!(numbers, [7; 3]);
    assert!(read_dimacs(b"p cnf 2 1\n1 2 0", &mut numbers).is_ok());
    assert_eq!(numbers, [1, 2, 0]);
}

#[test]
fn one_token_at_each_step() {
    let text = b" 1\r\n-2\t0 x % 3";
    let tokens = [(Token::Literal(1), 2), (Token::Literal(-2), 6), (Token::Close, 8), (Token::NotInForm, 10), (Token::End, 12)];
    let mut place = 0;
    for (token, next) in tokens {
        assert_eq!(token_step(2, text, place), Some((token, next)));
        place = next;
    }
    assert_eq!(token_step(2, text, place), Some((Token::NotInForm, 14)));
    assert_eq!(token_step(3, text, place), Some((Token::Literal(3), 14)));
    assert_eq!(token_step(3, text, 14), None);
    assert_eq!(token_step(3, text, usize::MAX), None);
    assert_eq!(token_step(24, b"-12", 1), Some((Token::Literal(12), 3)));
    assert_eq!(token_step(0, b"1", 0), Some((Token::NotInForm, 1)));
}
