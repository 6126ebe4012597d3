//! The smallest input of every difference in docs/DIFFERENCES.md, run: what 01 says, what either build of the Rust does.

use std::panic::{AssertUnwindSafe, catch_unwind};
use std::sync::mpsc;
use std::time::Duration;

use reading::answer::hex;
use reading::calls;
use reading::case::{Argument, Case};
use reading::number::{self, L, Limbs, ONE, ZERO};

use crate::side::{End, Side, sides};

const TOP: Limbs = [0, 0, 0, 1 << 63];
/// The least numbers whose NAF of width 5 or 8 has a digit at place 256: each window up from the lowest is 17 or 129.
const NAF5: Limbs = [0x1084210842108422, 0x2108421084210842, 0x4210842108421084, 0x8421084210842108];
const NAF8: Limbs = [0x8080808080808081, 0x8080808080808080, 0x8080808080808080, 0x8080808080808080];
/// The least whose radix-16 digit at place 63 is 9: the carry runs up from place 0.
const RADIX16: Limbs = [0x7777777777777778, 0x7777777777777777, 0x7777777777777777, 0x8777777777777777];

pub fn smallest() -> bool {
    std::panic::set_hook(Box::new(|_| {}));
    for side in &sides() {
        println!("== {} build", side.name);
        engines(side);
        recodings(side);
        lookups(side);
    }
    println!("== document 01");
    said();
    println!("== comments");
    comments();
    true
}

fn bytes(s: &Limbs) -> [u8; 32] {
    number::to_bytes(s)
}

/// A value shown by its lowest byte where it is small, else in hex.
fn value(e: &Limbs) -> String {
    match e {
        [x, 0, 0, 0] => x.to_string(),
        _ if number::below(e, &L) && number::negated(e)[1..] == [0; 3] => format!("L-{}", number::negated(e)[0]),
        _ => hex(&number::to_bytes(e)),
    }
}

fn show(what: &str, end: End<Limbs>) {
    match end {
        End::Panic => println!("{what}: panic"),
        End::Nothing => println!("{what}: None"),
        End::Done(e, a, d) => println!("{what}: {}, {a} additions, {d} doublings", value(&e)),
    }
}

fn engines(side: &Side) {
    let one = bytes(&ONE);
    show("straus, no scalar and point 1", side.run(|| (side.straus)(&[], &[ONE])));
    show("straus optional, no scalar and point 1", side.run_optional(|| (side.straus_optional)(&[], &[Some(ONE)])));
    show(
        "straus optional, scalar 1 and points 1, absent",
        side.run_optional(|| (side.straus_optional)(&[one], &[Some(ONE), None])),
    );
    show(
        "straus optional, scalar 2^255, absent",
        side.run_optional(|| (side.straus_optional)(&[bytes(&TOP)], &[None])),
    );
    for n in [499, 500, 799, 800] {
        show(
            &format!("pippenger, {n} scalars 0 and no point"),
            side.run_optional(|| (side.pippenger)(&vec![[0; 32]; n], &[])),
        );
    }
    show(
        "pippenger, scalar 1 and points 1, absent",
        side.run_optional(|| (side.pippenger)(&[one], &[Some(ONE), None])),
    );
    show("pippenger, no scalar and an absent point", side.run_optional(|| (side.pippenger)(&[], &[None])));
    show("straus optional, no scalar and an absent point", side.run_optional(|| (side.straus_optional)(&[], &[None])));
    show("straus, 1025 pairs (1, 1)", side.run(|| (side.straus)(&vec![one; 1025], &vec![ONE; 1025])));
    show("mixed, a static scalar without a table", side.run_optional(|| (side.mixed)(&[], &[one], &[], &[])));
    show("mixed, a dynamic scalar without a point", side.run_optional(|| (side.mixed)(&[], &[], &[one], &[])));
    show("mixed, both and an absent point", side.run_optional(|| (side.mixed)(&[], &[one], &[], &[None])));
    for (name, s) in [
        ("2^255", TOP),
        ("one below the next", number::minus(NAF5, ONE)),
        ("the least whose width-5 NAF needs place 256", NAF5),
        ("one below the next", number::minus(NAF8, ONE)),
        ("the least whose width-8 NAF needs place 256", NAF8),
        ("one below the next", number::minus(RADIX16, ONE)),
        ("the least whose last radix-16 digit is 9", RADIX16),
        ("2^256-1", [u64::MAX; 4]),
    ] {
        println!("scalar {name} = {} modulo L {}, point 1:", hex(&bytes(&s)), value(&number::modulo(&s)));
        let b = bytes(&s);
        show("  single base", side.run(|| (side.variable_base)(ONE, b)));
        show("  double base, a", side.run(|| (side.double_base)(b, ONE, [0; 32])));
        show("  double base, b", side.run(|| (side.double_base)([0; 32], ONE, b)));
        show("  straus", side.run(|| (side.straus)(&[b], &[ONE])));
        show("  straus optional", side.run_optional(|| (side.straus_optional)(&[b], &[Some(ONE)])));
        show("  pippenger", side.run_optional(|| (side.pippenger)(&[b], &[Some(ONE)])));
    }
}

/// A row by its digits that are not 0.
fn row(end: End<Vec<i8>>) -> String {
    match end {
        End::Done(digits, ..) => {
            let places = digits.iter().enumerate().filter(|(_, d)| **d != 0);
            let shown: Vec<String> = places.take(8).map(|(i, d)| format!("{d} at {i}")).collect();
            if shown.is_empty() { "zeros".into() } else { shown.join(", ") }
        }
        _ => "panic".into(),
    }
}

fn recodings(side: &Side) {
    for (w, s) in [(0, 1), (1, 1), (1, 2), (9, 129), (16, 129)] {
        println!(
            "naf of {s}, width {w}: {}",
            row(side.run(|| (side.non_adjacent_form)(bytes(&[s, 0, 0, 0]), w).to_vec()))
        );
    }
    for (w, s) in [(0, 0), (3, 0), (9, 128), (9, 256)] {
        println!("radix of {s}, width {w}: {}", row(side.run(|| (side.as_radix_2w)(bytes(&[s, 0, 0, 0]), w).to_vec())));
    }
    println!("radix 16 of 2^255: {}", row(side.run(|| (side.as_radix_16)(bytes(&TOP)).to_vec())));
    println!("naf of 2^256-1, width 5: {}", row(side.run(|| (side.non_adjacent_form)([255; 32], 5).to_vec())));
    for w in [17, 32, 63, 64, 65, 128, usize::MAX] {
        let (naf, radix) = (side.non_adjacent_form, side.as_radix_2w);
        println!("naf of 2, width {w}: {}", in_time(move || naf(bytes(&[2, 0, 0, 0]), w).to_vec()));
        println!("radix of 2, width {w}: {}", in_time(move || radix(bytes(&[2, 0, 0, 0]), w).to_vec()));
    }
}

/// A row by its digits that are not 0, where the call ends in time.
fn in_time(call: impl FnOnce() -> Vec<i8> + Send + 'static) -> String {
    let (sender, receiver) = mpsc::channel();
    std::thread::spawn(move || sender.send(catch_unwind(AssertUnwindSafe(call))));
    match receiver.recv_timeout(Duration::from_secs(3)) {
        Ok(Ok(digits)) => row(End::Done(digits, 0, 0)),
        Ok(Err(_)) => "panic".into(),
        Err(_) => "has not ended after 3 s".into(),
    }
}

fn lookups(side: &Side) {
    let window: Vec<Limbs> = (1..9).map(|k| [k, 0, 0, 0]).collect();
    let odd: Vec<Limbs> = (0..64).map(|k| [2 * k + 1, 0, 0, 0]).collect();
    for d in [8, -8, 9, -9, -128] {
        show(&format!("select {d}"), side.run(|| (side.select)(&window, d)));
    }
    for d in [0, 2, 15, 16, 17] {
        show(&format!("select_naf5 {d}"), side.run(|| (side.select_naf5)(&odd[..8], d)));
    }
    for d in [0, 2, 127, 128] {
        show(&format!("select_naf8 {d}"), side.run(|| (side.select_naf8)(&odd, d)));
    }
}

/// What 01 answers to the same.
fn said() {
    let s = |list: &[Limbs]| Argument::Bytes(list.iter().flat_map(number::to_bytes).collect());
    let p = |list: &[Limbs]| Argument::Limbs(list.concat());
    let flags = |list: &[u8]| Argument::Bytes(list.to_vec());
    let room = |digits: usize, limbs: usize| [Argument::Digits(vec![0; digits]), Argument::Limbs(vec![0; limbs])];
    let say = |what: &str, code: u8, mut arguments: Vec<Argument>, more: &[Argument]| {
        arguments.extend(more.iter().cloned());
        let answer = calls::answer(&Case { code, arguments });
        println!("{what}: number {}, counts {:?}", answer.number, answer.counts);
    };
    say("straus, no scalar and point 1", 18, vec![s(&[]), p(&[ONE])], &room(0, 0));
    say("straus optional, no scalar and point 1", 19, vec![s(&[]), p(&[ONE]), flags(&[1])], &room(0, 0));
    say("straus optional, scalar 2^255, absent", 19, vec![s(&[TOP]), p(&[ZERO]), flags(&[0])], &room(256, 32));
    for n in [499, 500, 799, 800] {
        say(
            &format!("pippenger, {n} scalars 0 and no point"),
            22,
            vec![s(&vec![ZERO; n]), p(&[]), flags(&[])],
            &room(0, 512),
        );
    }
    say(
        "pippenger, scalar 1 and points 1, absent",
        22,
        vec![s(&[ONE]), p(&[ONE, ZERO]), flags(&[1, 0])],
        &room(64, 128),
    );
    say("straus, 1025 pairs (1, 1)", 18, vec![s(&vec![ONE; 1025]), p(&vec![ONE; 1025])], &room(65600, 32800));
    say(
        "mixed, a static scalar without a table",
        21,
        vec![p(&[]), s(&[ONE]), s(&[]), p(&[]), flags(&[])],
        &room(256, 0),
    );
    say(
        "mixed, a dynamic scalar without a point",
        21,
        vec![p(&[]), s(&[]), s(&[ONE]), p(&[]), flags(&[])],
        &room(256, 32),
    );
    say(
        "mixed, a static scalar without a table and an absent point",
        21,
        vec![p(&[]), s(&[ONE]), s(&[]), p(&[ONE]), flags(&[0])],
        &room(256, 0),
    );
}

/// What the crate's comments say otherwise than its code.
fn comments() {
    let side = &sides()[0];
    let top = number::minus(TOP, ONE);
    println!("radix 16 of 2^255-1: {}", row(side.run(|| (side.as_radix_16)(bytes(&top)).to_vec())));
    println!("radix 2^6 of 32: {}", row(side.run(|| (side.as_radix_2w)(bytes(&[32, 0, 0, 0]), 6).to_vec())));
    for (w, least) in [(5, 1008), (6, 4064), (7, 16320), (8, 65408)] {
        let s = [least, 0, 0, 0];
        let below = number::minus(s, ONE);
        println!(
            "window and carry at place 1 of {least}, width {w}: {}; of one less: {}",
            coefficient(&s, w),
            coefficient(&below, w)
        );
        println!("  radix 2^{w} of 2^255-1: {}", row(side.run(|| (side.as_radix_2w)(bytes(&top), w).to_vec())));
    }
    println!("{}", curve25519_dalek::probe::comments());
}

/// Bits w to 2w-1 of the scalar and the carry from place 0.
fn coefficient(s: &Limbs, w: usize) -> u64 {
    let carry = (s[0] % (1 << w) >= 1 << (w - 1)) as u64;
    (s[0] >> w) % (1 << w) + carry
}
