//! Each call on one input: the safe call, and the raw call with every size of answer slice, held to `plain`.
//!
//! Each function takes the sizes of the buffers that the call writes, which hold random words before, and gives the answer.

use crate::lent::{judge, returned, Answer, Lent, ROOMS};
use crate::random::Random;
use hecke::raw;

/// The answer of a call of either crate, from what it answers and the words that these are.
macro_rules! answer {
    ($result:expr, $value:pat => $words:expr) => {
        $result.map(|$value| $words.to_vec()).map_err(|refusal| (refusal.number, refusal.place))
    };
    ($result:expr) => {
        answer!($result, count => [count])
    };
}

/// A call that writes a list made from one list, and answers nothing.
macro_rules! writes_list {
    ($name:ident, $raw:ident) => {
        pub fn $name(random: &mut Random, list: &[u8], room: usize) -> Answer {
            let old = random.bytes(room);
            let (mut due, mut safe) = (old.clone(), old.clone());
            let answer = answer!(plain::$name(list, &mut due), () => []);
            assert_eq!(answer!(hecke::$name(list, &mut safe), () => []), answer);
            assert_eq!(safe, due);
            let (mut input, mut result) = (Lent::new(list), Lent::new(&old));
            let word = unsafe { raw::$raw(input.ptr(), input.len(), result.ptr(), result.len()) };
            assert_eq!(word, returned(&answer));
            input.assert_holds(list);
            result.assert_holds(&due);
            answer
        }
    };
}

writes_list!(tower_of_images, hecke_tower_of_images);
writes_list!(images_of_tower, hecke_images_of_tower);
writes_list!(tower_inverse, hecke_tower_inverse);

pub fn tower_product(random: &mut Random, left: &[u8], right: &[u8], room: usize) -> Answer {
    let old = random.bytes(room);
    let (mut due, mut safe) = (old.clone(), old.clone());
    let answer = answer!(plain::tower_product(left, right, &mut due), () => []);
    assert_eq!(answer!(hecke::tower_product(left, right, &mut safe), () => []), answer);
    assert_eq!(safe, due);
    let (mut u, mut v, mut uv) = (Lent::new(left), Lent::new(right), Lent::new(&old));
    let word = unsafe { raw::hecke_tower_product(u.ptr(), u.len(), v.ptr(), v.len(), uv.ptr(), uv.len()) };
    assert_eq!(word, returned(&answer));
    u.assert_holds(left);
    v.assert_holds(right);
    uv.assert_holds(&due);
    answer
}

/// A call that only answers on a list.
macro_rules! answers {
    ($name:ident, $raw:ident, $value:pat => $words:expr) => {
        pub fn $name(list: &[u8]) -> Answer {
            let answer = answer!(plain::$name(list), $value => $words);
            assert_eq!(answer!(hecke::$name(list), $value => $words), answer);
            for room in ROOMS {
                let mut input = Lent::new(list);
                judge(&answer, room, |words, room| unsafe { raw::$raw(input.ptr(), input.len(), words, room) });
                input.assert_holds(list);
            }
            answer
        }
    };
}

answers!(tower_length, hecke_tower_length, length => [length]);
answers!(tower_descents, hecke_tower_descents, descents => [descents.mask, descents.count]);

pub fn sheet_check(sheet: &[u8]) -> Answer {
    let answer = answer!(plain::sheet_check(sheet), () => []);
    assert_eq!(answer!(hecke::sheet_check(sheet), () => []), answer);
    let mut input = Lent::new(sheet);
    assert_eq!(unsafe { raw::hecke_sheet_check(input.ptr(), input.len()) }, returned(&answer));
    input.assert_holds(sheet);
    answer
}

/// A call that writes a buffer made from one list, and answers a count.
macro_rules! writes_and_counts {
    ($name:ident, $raw:ident, $fill:ident) => {
        pub fn $name(random: &mut Random, list: &[u8], room: usize) -> Answer {
            let old = random.$fill(room);
            let (mut due, mut safe) = (old.clone(), old.clone());
            let answer = answer!(plain::$name(list, &mut due));
            assert_eq!(answer!(hecke::$name(list, &mut safe)), answer);
            assert!(safe == due);
            for room in ROOMS {
                let (mut input, mut result) = (Lent::new(list), Lent::new(&old));
                judge(&answer, room, |words, room| unsafe {
                    raw::$raw(input.ptr(), input.len(), result.ptr(), result.len(), words, room)
                });
                input.assert_holds(list);
                result.assert_holds(&due);
            }
            answer
        }
    };
}

writes_and_counts!(tower_word, hecke_tower_word, bytes);
writes_and_counts!(run_sheet, hecke_run_sheet, words);

pub fn sum(random: &mut Random, m: usize, left: &[u64], right: &[u64], room: usize) -> Answer {
    let old = random.words(room);
    let (mut due, mut safe) = (old.clone(), old.clone());
    let answer = answer!(plain::sum(m, left, right, &mut due));
    assert_eq!(answer!(hecke::sum(m, left, right, &mut safe)), answer);
    assert_eq!(safe, due);
    for room in ROOMS {
        let (mut h, mut g, mut result) = (Lent::new(left), Lent::new(right), Lent::new(&old));
        judge(&answer, room, |words, room| unsafe {
            raw::hecke_sum(m, h.ptr(), h.len(), g.ptr(), g.len(), result.ptr(), result.len(), words, room)
        });
        h.assert_holds(left);
        g.assert_holds(right);
        result.assert_holds(&due);
    }
    answer
}

pub fn scale(random: &mut Random, m: usize, c: u64, element: &[u64], room: usize) -> Answer {
    let old = random.words(room);
    let (mut due, mut safe) = (old.clone(), old.clone());
    let answer = answer!(plain::scale(m, c, element, &mut due));
    assert_eq!(answer!(hecke::scale(m, c, element, &mut safe)), answer);
    assert_eq!(safe, due);
    for room in ROOMS {
        let (mut h, mut result) = (Lent::new(element), Lent::new(&old));
        judge(&answer, room, |words, room| unsafe {
            raw::hecke_scale(m, c, h.ptr(), h.len(), result.ptr(), result.len(), words, room)
        });
        h.assert_holds(element);
        result.assert_holds(&due);
    }
    answer
}

pub fn act_word(m: usize, q: u64, word: &[u8], element: &[u64]) -> Answer {
    let (mut due, mut safe) = (element.to_vec(), element.to_vec());
    let answer = answer!(plain::act_word(m, q, word, &mut due));
    assert_eq!(answer!(hecke::act_word(m, q, word, &mut safe)), answer);
    assert_eq!(safe, due);
    for room in ROOMS {
        let (mut letters, mut h) = (Lent::new(word), Lent::new(element));
        judge(&answer, room, |words, room| unsafe {
            raw::hecke_act_word(m, q, letters.ptr(), letters.len(), h.ptr(), h.len(), words, room)
        });
        letters.assert_holds(word);
        h.assert_holds(&due);
    }
    answer
}

pub fn act_signed_word(m: usize, q: u64, word: &[i8], element: &[u64]) -> Answer {
    let (mut due, mut safe) = (element.to_vec(), element.to_vec());
    let answer = answer!(plain::act_signed_word(m, q, word, &mut due));
    assert_eq!(answer!(hecke::act_signed_word(m, q, word, &mut safe)), answer);
    assert_eq!(safe, due);
    let bytes: Vec<u8> = word.iter().map(|&letter| letter as u8).collect();
    for room in ROOMS {
        let (mut letters, mut h) = (Lent::new(&bytes), Lent::new(element));
        judge(&answer, room, |words, room| unsafe {
            raw::hecke_act_signed_word(m, q, letters.ptr().cast(), letters.len(), h.ptr(), h.len(), words, room)
        });
        letters.assert_holds(&bytes);
        h.assert_holds(&due);
    }
    answer
}

/// The rank, q and factors of a product.
pub struct Factors<'a> {
    pub m: usize,
    pub q: u64,
    pub left: &'a [u64],
    pub right: &'a [u64],
}

pub fn product(random: &mut Random, factors: Factors, room: usize, scratch: usize) -> Answer {
    let Factors { m, q, left, right } = factors;
    let (old, work) = (random.words(room), random.words(scratch));
    let (mut due, mut due_work) = (old.clone(), work.clone());
    let (mut safe, mut safe_work) = (old.clone(), work.clone());
    let answer = answer!(plain::product(m, q, left, right, &mut due, &mut due_work));
    assert_eq!(answer!(hecke::product(m, q, left, right, &mut safe, &mut safe_work)), answer);
    assert!(safe == due && safe_work == due_work);
    for room in ROOMS {
        let (mut h, mut g, mut hg, mut lent_work) = (Lent::new(left), Lent::new(right), Lent::new(&old), Lent::new(&work));
        let (scratch, size) = (lent_work.ptr(), lent_work.len());
        judge(&answer, room, |words, room| unsafe {
            raw::hecke_product(m, q, h.ptr(), h.len(), g.ptr(), g.len(), hg.ptr(), hg.len(), scratch, size, words, room)
        });
        h.assert_holds(left);
        g.assert_holds(right);
        hg.assert_holds(&due);
        lent_work.assert_holds(&due_work);
    }
    answer
}

pub fn pairing(m: usize, q: u64, left: &[u64], right: &[u64]) -> Answer {
    let answer = answer!(plain::pairing(m, q, left, right), value => [value]);
    assert_eq!(answer!(hecke::pairing(m, q, left, right), value => [value]), answer);
    for room in ROOMS {
        let (mut h, mut g) = (Lent::new(left), Lent::new(right));
        judge(&answer, room, |words, room| unsafe {
            raw::hecke_pairing(m, q, h.ptr(), h.len(), g.ptr(), g.len(), words, room)
        });
        h.assert_holds(left);
        g.assert_holds(right);
    }
    answer
}

/// The trace of an element with the rank, q and z, and a scratch of so many random words.
pub fn trace(random: &mut Random, (m, q, z): (usize, u64, u64), element: &[u64], scratch: usize) -> Answer {
    let work = random.words(scratch);
    let (mut due, mut safe) = (work.clone(), work.clone());
    let answer = answer!(plain::trace(m, q, z, element, &mut due), value => [value]);
    assert_eq!(answer!(hecke::trace(m, q, z, element, &mut safe), value => [value]), answer);
    assert!(safe == due);
    for room in ROOMS {
        let (mut h, mut lent_work) = (Lent::new(element), Lent::new(&work));
        judge(&answer, room, |words, room| unsafe {
            raw::hecke_trace(m, q, z, h.ptr(), h.len(), lent_work.ptr(), lent_work.len(), words, room)
        });
        h.assert_holds(element);
        lent_work.assert_holds(&due);
    }
    answer
}
