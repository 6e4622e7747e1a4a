//! A pool of a synthesizer's voices. The heap has as many words as `Heap::words_for` says for so many voices of that size,
//! so no voice is refused, in whatever order they come and go.

use peachanchor::{Block, Error, Heap, Level};

const AT_ONCE: usize = 16;
const LONGEST: usize = 4096;

/// A voice: its samples lie in a block, which goes back when the voice does.
struct Voice<'h> {
    samples: Block<'h>,
}

impl<'h> Voice<'h> {
    fn start(heap: &'h Heap<'_>, bytes: usize) -> Result<Self, Error> {
        let samples = heap.allocate(bytes)?; // all zero
        samples[0].set(64);
        Ok(Self { samples })
    }

    /// Each sample becomes the mean of itself and the one before it.
    fn play(&self) -> u64 {
        for pair in self.samples.windows(2) {
            pair[1].set(pair[0].get().midpoint(pair[1].get()));
        }
        self.samples.iter().map(|sample| u64::from(sample.get())).sum()
    }
}

fn main() -> Result<(), Error> {
    let words = Heap::words_for(Level::Four, AT_ONCE as u32, LONGEST)?;
    let heap = Heap::open(Level::Four, 1, words)?;
    let mut voices: [Option<Voice<'_>>; AT_ONCE] = [const { None }; AT_ONCE];
    let mut loudness = 0;
    for started in 0..4000_usize {
        let slot = (started * 7 + started / 31) % AT_ONCE;
        voices[slot] = None; // the voice that was here ends
        voices[slot] = Some(Voice::start(&heap, 256 + started * 1103 % (LONGEST - 255))?);
        loudness += voices.iter().flatten().map(Voice::play).sum::<u64>();
    }
    let counts = heap.counts()?;
    println!("4000 voices, at most {AT_ONCE} at once: a heap of {words} words, {} refused", counts.refused);
    println!("{} words were in use at most; loudness {loudness}", counts.most_words);
    Ok(())
}
