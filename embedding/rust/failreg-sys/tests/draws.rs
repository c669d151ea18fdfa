//! The random draws of evaluations: ChaCha8's, with the seed as its key, on the stream of the
//! node's number.

use failreg_sys::*;

/// The first ones for the key 00 01 02 .. 1f on stream 1. They come from a program written from the
/// cipher's definition, whose first block for the key of zeros is the published one: 3e00ef2f
/// 895f40d6 7f5bb8e8 1f09a5a1 ..
const FIRST_DRAWS: [u32; 4] = [4011706191, 3171865337, 2462398529, 2436282966];

const NAME: &str = "p";

fn set(node: &mut failreg, actions: &str) -> u32 {
    let mut stamp = failreg_stamp::default();
    let (name, text) = (NAME.as_ptr(), actions.as_ptr());
    // SAFETY: each pointer leads to as many bytes as its length says.
    unsafe { failreg_set(node, name, NAME.len(), text, actions.len(), &mut stamp) }
}

/// Returns the draws of an evaluation, which has at most two.
fn draws_of_pass(node: &mut failreg) -> Vec<u32> {
    let mut act = failreg_act::default();
    let mut draws = [0; 2];
    // SAFETY: each pointer leads to as many bytes or numbers as its length says.
    let count = unsafe {
        let status = failreg_pass(node, NAME.as_ptr(), NAME.len(), &mut act);
        assert_eq!(status, FAILREG_OK);
        failreg_words(node, draws.as_mut_ptr(), draws.len())
    };
    draws[..count].to_vec()
}

#[test]
fn passes_draw_from_the_stream_of_their_node() {
    let seed = std::array::from_fn(|place| place as u8);
    let mut node = failreg::CLOSED;
    assert_eq!(failreg_open(&mut node, 1, 2, 5, &seed), FAILREG_OK);
    assert_eq!(set(&mut node, "20%off"), FAILREG_OK);
    for draw in FIRST_DRAWS {
        assert_eq!(draws_of_pass(&mut node), [draw]);
    }
    failreg_close(&mut node);
}
