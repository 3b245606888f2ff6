//! What each toxic does, in numbers, by one call.
use crate::refusal::Refusal;
use crate::rehearse::{inputs, texts, Inputs, NO_ROOM};

#[repr(C)]
struct Sizes {
    counts: usize,
    text: usize,
}

#[link(name = "toxicap", kind = "static")]
#[rustfmt::skip]
extern "C" {
    fn toxicap_effects(
        inputs: *const Inputs, counts: *mut u64, counts_room: usize, text: *mut u8, text_room: usize, sizes: *mut Sizes,
    ) -> u8;
}

/// For each proxy, scenario after scenario, how many connections meet it; after that for each of its toxics, those of what the client sends first, how
/// many draw it by its toxicity, and how many are others without it: in their line of the report, or in their records.
///
/// # Errors
///
/// Those of [`rehearse`](crate::rehearse()).
#[rustfmt::skip]
pub fn effects(capture: &[u8], scenarios: &[&str], hosts: &str, seed: u64) -> Result<Vec<u64>, Refusal> {
    let texts = texts(scenarios);
    let inputs = inputs(capture, &texts, hosts, seed);
    // each proxy has one number, and each toxic two; each begins with a brace
    let mut sizes = Sizes { counts: 2 * texts.0.matches('{').count(), text: 4096 };
    loop {
        let (mut counts, mut text) = (vec![0; sizes.counts], vec![0; sizes.text]);
        // SAFETY: each pointer goes with its own slice's length, and the outputs are apart from all else.
        let status = unsafe { toxicap_effects(&inputs, counts.as_mut_ptr(), counts.len(), text.as_mut_ptr(), text.len(), &mut sizes) };
        if status == NO_ROOM { continue }
        Refusal::check(status, &text[..sizes.text])?;
        counts.truncate(sizes.counts);
        return Ok(counts);
    }
}
