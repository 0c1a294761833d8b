//! The values of literals: where they stand in a record, in which order their offences are met, and that no report depends
//! on them.

mod common;

use common::{SCHEMA, TARGETS};
use dogwood_check::*;

const ONE: &[u8] = &[0, 0, 0, 0, 0, 0, 0, 1];

/// `left == right`, where nothing else stands.
fn equality(left: Term, right: Term) -> Condition {
    Condition::comparison(0..0, Operator::Eq, left, right)
}

/// The bytes of an equality behind the operator, and the record's version.
fn terms(left: Term, right: Term) -> (u8, Vec<u8>) {
    let bytes = equality(left, right).encode().unwrap();
    assert_eq!(read_condition(&bytes), Ok(()));
    (bytes[4], bytes[15..].to_vec())
}

/// The equality of two terms that are given as bytes, in this version.
fn spelled(version: u8, terms: &[u8]) -> Vec<u8> {
    [b"DWC\0", [version].as_slice(), b"\x08\0\0\0\0\0\0\0\0\x04", terms].concat()
}

fn refusal(terms: &[&[u8]]) -> u8 {
    read_condition(&spelled(3, &terms.concat())).map_or_else(Cause::number, |()| 0)
}

#[test]
fn where_values_stand() {
    assert_eq!(terms(Term::integer(1), Term::integer(-1)), (3, [&[2], ONE, &[2], &[0xFF; 8]].concat()));
    assert_eq!(terms(Term::bool(false), Term::bool(true)), (3, vec![5, 0, 5, 1]));
    assert_eq!(terms(Term::string("a b"), Term::string("")), (3, b"\x04\x03a b\x04\0".to_vec()));
    assert_eq!(terms(Term::uid("A::U", "x"), Term::uid("U", "")), (3, b"\x01\x04A::U\x01x\x01\x01U\0".to_vec()));
    let decimals = (Term::decimal("1.5").unwrap(), Term::decimal("-00.0").unwrap());
    assert_eq!(terms(decimals.0, decimals.1), (3, b"\x03\x061.5000\x03\x060.0000".to_vec()));
    for op in ArithOp::ALL {
        let computed = Term::computed(op, Term::integer(1), Term::Wildcard);
        let bytes = [&[12, op as u8, 2], ONE, &[9, 10, 1, 5, 1]].concat();
        assert_eq!(terms(computed, Term::array([Term::bool(true)])), (3, bytes));
    }
}

/// A tree is written in the lowest version that has room for what it says, and what is left out in that version is named.
#[test]
fn versions() {
    let version = |condition: Condition| condition.encode().map(|bytes| bytes[4]);
    let formerly = |body| Condition::formerly(5..6, body);
    let within = |body| Condition::formerly_within(5..6, Window::hours(1), body);
    let (plain, valued) = (|| equality(Term::Integer, Term::Bool), || equality(Term::integer(1), Term::bool(true)));
    assert_eq!(version(formerly(plain())), Ok(1));
    assert_eq!(version(within(plain())), Ok(2));
    assert_eq!(version(within(valued())), Ok(3));
    assert_eq!(version(valued()), Ok(3));
    assert_eq!(version(equality(Term::Wildcard, Term::var("v"))), Ok(1));
    let missing = |condition: Condition| {
        let error = condition.encode().unwrap_err();
        assert_eq!(error.cause(), None);
        (error.problem().clone(), error.span().unwrap())
    };
    assert_eq!(missing(formerly(valued())), (Problem::WindowMissing, (5..6).into()));
    assert_eq!(
        missing(Condition::and(0..9, formerly(plain()), within(plain()))),
        (Problem::WindowMissing, (5..6).into())
    );
    for without in [Term::Integer, Term::Decimal, Term::String, Term::Bool, Term::entity("U")] {
        let both = Condition::comparison(7..8, Operator::Lt, without.clone(), Term::integer(1));
        assert_eq!(missing(both), (Problem::ValueMissing, (7..8).into()));
        let below = Term::computed(ArithOp::Add, Term::Wildcard, Term::array([without]));
        assert_eq!(missing(equality(Term::Wildcard, below)), (Problem::ValueMissing, (0..0).into()));
    }
    let arith = Term::arith(Term::integer(1), Term::Wildcard);
    assert_eq!(missing(equality(Term::Wildcard, arith)), (Problem::ValueMissing, (0..0).into()));
}

#[test]
fn what_no_record_holds() {
    let problem = |term| equality(term, Term::Wildcard).encode().unwrap_err().problem().clone();
    let outside = |text: &str| Problem::OutsideClass { text: text.to_string(), class: Class::Plain };
    assert_eq!(problem(Term::string("it's")), outside("it's"));
    assert_eq!(problem(Term::uid("U", "Zo\u{eb}")), outside("Zo\u{eb}"));
    let long = "a".repeat(256);
    assert_eq!(problem(Term::string(long.clone())), Problem::TextTooLong { text: long.clone() });
    assert_eq!(problem(Term::uid("U", long.clone())), Problem::TextTooLong { text: long });
    assert_eq!(Term::decimal("1.00000"), Err(DecimalError::Malformed));
    assert_eq!(Term::decimal("-922337203685477.5809"), Err(DecimalError::Beyond));
    assert_eq!(DecimalError::Malformed.cause().number(), 15);
    assert_eq!(DecimalError::Beyond.cause().number(), 16);
}

/// The numbers at a value: 2 and 5 or 6 as for any such field, and at a decimal's text 15 and 16 behind them.
#[test]
fn offences() {
    assert_eq!(refusal(&[b"\x01\x01U"]), 2);
    assert_eq!(refusal(&[b"\x01\x01U\x01\""]), 6);
    assert_eq!(refusal(&[b"\x02", &ONE[1..]]), 2);
    assert_eq!(refusal(&[b"\x05"]), 2);
    assert_eq!(refusal(&[b"\x05\x02"]), 5);
    assert_eq!(refusal(&[b"\x0C\x03"]), 5);
    assert_eq!(refusal(&[b"\x0C\x02\x0F"]), 5);
    assert_eq!(refusal(&[b"\x0A\x01\x0C\0\x0B"]), 9);
    assert_eq!(refusal(&[b"\x03\x041."]), 2);
    assert_eq!(refusal(&[b"\x03\x021\""]), 6);
    assert_eq!(refusal(&[b"\x03\x1A99999999999999999999.00000"]), 15);
    assert_eq!(refusal(&[b"\x03\x1699999999999999999999.0"]), 16);
    assert_eq!(refusal(&[b"\x03\0"]), 15);
    assert_eq!(read_condition(&spelled(3, b"\x02\x02")), Err(Cause::Cut));
    assert_eq!(read_condition(&spelled(2, b"\x02\x02")), Ok(()));
    assert_eq!(read_condition(&spelled(4, b"\x02\x02")), Err(Cause::OtherVersion));
}

/// The library judges the texts of decimals as [`Decimal`] does.
#[test]
fn texts_of_decimals() {
    let texts =
        ["", "-", ".", "0", "0.", ".0", "0.0", "-0.0", "--0.0", "+0.0", "0.0 ", "1.2345", "1.23456", "1e5", "1.-5"];
    let ends = ["922337203685477.5807", "922337203685477.5808", "-922337203685477.5808", "-922337203685477.5809"];
    let long = format!("-{}.1", "0".repeat(250));
    let longer = format!("{}.12", "9".repeat(252));
    for text in texts.into_iter().chain(ends).chain([long.as_str(), longer.as_str()]) {
        let wanted = text.parse::<Decimal>().map_or_else(|error| error.cause().number(), |_| 0);
        assert_eq!(refusal(&[&[3, text.len() as u8], text.as_bytes(), &[9]]), wanted, "{text}");
    }
}

/// The same tree without values, with some and with others has the same reports.
#[test]
fn values_change_no_report() {
    let pairs: [(Term, [Term; 2]); 5] = [
        (Term::Integer, [Term::integer(i64::MIN), Term::integer(5)]),
        (Term::Decimal, [Term::decimal("1.5").unwrap(), Term::decimal("-0.0001").unwrap()]),
        (Term::String, [Term::string("boolean"), Term::string("")]),
        (Term::Bool, [Term::bool(true), Term::bool(false)]),
        (Term::entity("A::U"), [Term::uid("A::U", "ann"), Term::uid("A::U", "")]),
    ];
    let found = |left: Term, right: Term| {
        let compared = |operator| Condition::comparison(1..2, operator, left.clone(), right.clone());
        let both = Condition::and(0..9, compared(Operator::Lt), compared(Operator::Eq)).encode().unwrap();
        (check(SCHEMA, &both, TARGETS).unwrap(), sums(&both).unwrap())
    };
    let summed = |op: Option<ArithOp>, term: &Term| match op {
        Some(op) => Term::computed(op, term.clone(), Term::Wildcard),
        None => Term::arith(term.clone(), Term::Wildcard),
    };
    for (left, lefts) in &pairs {
        for (right, rights) in &pairs {
            let plain = found(left.clone(), right.clone());
            let sum = found(summed(None, left), right.clone());
            for (left, right) in lefts.iter().flat_map(|left| rights.iter().map(move |right| (left, right))) {
                assert_eq!(found(left.clone(), right.clone()), plain);
                for op in ArithOp::ALL {
                    assert_eq!(found(summed(Some(op), left), right.clone()), sum);
                }
            }
        }
    }
}
