//! Request 5: the number of places for instances, and what is judged by it.

use reading::layout::Instance;
use reading::{Answer, Head, Lent, State, call, fresh, reads};

const SMALL_BYTES: usize = 16_384;
const LARGE_BYTES: usize = 65_536;
const NO_FIGURES: [u16; 8] = [0, 1, 31, 33, 64, 127, 129, 65_535];

/// A head with its buffers, pens of any length.
struct Image {
    head: Head,
    pens: Vec<u8>,
    writers: Vec<u8>,
    lost: Vec<u8>,
}

impl Image {
    /// So many instances, with keys and handles from 1 on.
    fn of(places: u16, instances: u8, pens: usize) -> Self {
        let mut state = State::fresh(places);
        state.instances = (1..=instances).map(|n| Instance::fresh([n; 16], n.into())).collect();
        state.head.next_handle = u64::from(instances) + 1;
        let (head, writers, lost) = (Head::fresh(places), vec![0; 5120], vec![0; 4096]);
        let mut image = Self { head, pens: vec![0; 129 * 512], writers, lost };
        state.write(&mut image.head, &mut image.pens, &mut image.writers, &mut image.lost);
        image.pens.truncate(pens);
        image
    }

    fn call(&mut self, sheet: &[u8]) -> Answer {
        let mut out = [0; 4096];
        let (pens, writers, lost) = (&mut self.pens, &mut self.writers, &mut self.lost);
        call(&mut self.head, sheet, Lent { pens, writers, lost, out: &mut out })
    }
}

/// Of a code, with key 200 and no limit.
fn sheet(code: u8) -> [u8; 256] {
    let mut sheet = [0; 256];
    sheet[..16].fill(200);
    sheet[72..76].fill(0xff);
    sheet[81] = code;
    sheet
}

#[test]
fn fresh_takes_its_places_from_the_length_of_pens() {
    for (length, places) in [(SMALL_BYTES, 32), (LARGE_BYTES, 128)] {
        let mut image = Image::of(7, 5, length);
        image.lost.fill(9);
        let Image { head, pens, writers, lost } = &mut image;
        assert_eq!(fresh(head, pens, writers, lost), 0);
        assert_eq!(image.head, Head::fresh(places));
        assert!([image.pens, image.writers, image.lost].concat().iter().all(|byte| *byte == 0));
    }
    for length in [0, 512, SMALL_BYTES - 1, SMALL_BYTES + 512, 32_768, LARGE_BYTES - 512] {
        let Image { mut head, mut pens, mut writers, mut lost } = Image::of(7, 0, length);
        assert_eq!(fresh(&mut head, &mut pens, &mut writers, &mut lost), 1, "{length}");
        assert_eq!(head, Head::fresh(7));
    }
}

#[test]
fn pens_are_judged_by_the_figure() {
    for (places, pens, number) in [
        (32, SMALL_BYTES, 0),
        (32, LARGE_BYTES, 1),
        (32, SMALL_BYTES + 512, 1),
        (128, LARGE_BYTES, 0),
        (128, SMALL_BYTES, 1),
        (128, LARGE_BYTES - 1, 1),
    ] {
        let mut image = Image::of(places, 3, pens);
        assert_eq!(image.call(&sheet(1)).number, number, "{places} {pens}");
        assert_eq!(image.head.places, places);
    }
}

/// Before the lengths and the code, and with pens of just so many places.
#[test]
fn another_figure_is_refused_before_all_else() {
    for figure in NO_FIGURES {
        let just = usize::from(figure) * 512;
        for pens in [0, SMALL_BYTES, LARGE_BYTES, just] {
            let mut image = Image::of(figure, 0, pens);
            for (sheet, shorter) in [(sheet(39), 0), (sheet(22), 0), (sheet(39), 1)] {
                let answer = image.call(&sheet[shorter..]);
                assert_eq!(answer, Answer::refused(3), "{figure} {pens}");
            }
            image.writers.pop();
            assert_eq!(image.call(&sheet(39)), Answer::refused(3));
        }
        assert_eq!(reads::status(&Head::fresh(figure)), Err(3));
        assert_eq!(reads::changes(&Head::fresh(figure)), Err(3));
    }
}

/// A table of all places takes no further instance, and one more than there
/// are places for is not well formed.
#[test]
fn the_figure_counts_instances() {
    for (places, pens) in [(32u8, SMALL_BYTES), (128, LARGE_BYTES)] {
        let of = |instances| Image::of(places.into(), instances, pens);
        for code in [1, 2, 8, 9, 48] {
            assert_eq!(of(places - 1).call(&sheet(code)).number, 0);
            assert_eq!(of(places).call(&sheet(code)).number, 9);
            assert_eq!(of(places + 1).call(&sheet(code)).number, 3);
        }
        let status = |instances| reads::status(&of(instances).head).map(|_| ());
        assert_eq!([status(places), status(places + 1)], [Ok(()), Err(3)]);
    }
}

/// None at a limit and outcome 3 still come before 9.
#[test]
fn a_limit_comes_first() {
    for (places, pens) in [(32u8, SMALL_BYTES), (128, LARGE_BYTES)] {
        for (code, outcome) in [(2, 0), (9, 0), (48, 3)] {
            let mut limited = sheet(code);
            limited[72..76].copy_from_slice(&u32::from(places).to_be_bytes());
            let answer = Image::of(places.into(), places, pens).call(&limited);
            assert_eq!((answer.number, answer.present, answer.outcome), (0, false, outcome));
        }
    }
}

/// Writers keep their places: the 129th is refused, on either console.
#[test]
fn writers_are_not_counted_to_the_figure() {
    for (places, pens) in [(32, SMALL_BYTES), (128, LARGE_BYTES)] {
        let mut image = Image::of(places, 0, pens);
        let mut matched = sheet(32);
        for n in 0..=128 {
            matched[16] = n;
            assert_eq!(image.call(&matched).number, if n < 128 { 0 } else { 11 });
        }
    }
}

/// Lent no head, a read takes the instances in front of the first handle 0.
#[test]
fn a_read_takes_either_length() {
    let handles = |pens: &[u8]| reads::table(pens).map(|all| all.len());
    for (length, kept) in [(SMALL_BYTES, 32), (LARGE_BYTES, 33)] {
        assert_eq!(handles(&Image::of(128, 33, length).pens), Ok(kept));
        assert_eq!(handles(&Image::of(128, 5, length).pens), Ok(5));
        let mut stray = Image::of(32, 5, length).pens;
        stray[length - 1] = 1;
        assert_eq!(handles(&stray), Err(3));
    }
    for length in [0, 512, SMALL_BYTES - 1, SMALL_BYTES + 512, 32_768, LARGE_BYTES + 512] {
        let pens = Image::of(128, 0, length).pens;
        assert_eq!(handles(&pens), Err(1), "{length}");
        assert_eq!(reads::holder_in_force(&pens, &[0; 16], b"offered"), b"offered");
    }
}
