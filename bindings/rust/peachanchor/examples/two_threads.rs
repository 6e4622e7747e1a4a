//! Two threads over two lanes. The first one has the heap, and sends the names of its blocks. The second says when each has
//! ended: it sends the name back, and the first releases the block. Neither waits in a call.

use peachanchor::{lane, Error, Heap, Level, Name, PostEnd, TakeEnd};
use std::thread;

const MESSAGES: u32 = 20_000;
const UNDER_WAY: u32 = 32;

/// Sends each name back, in its order. It needs no heap for that.
fn send_back(mut take: TakeEnd<'_>, mut post: PostEnd<'_>) {
    for _ in 0..MESSAGES {
        let name = wait_for(|| take.take());
        wait_for(|| post.put(name));
    }
}

/// Tries until it is done: what waits here is the program, and not the library.
fn wait_for<T>(mut call: impl FnMut() -> Result<T, Error>) -> T {
    loop {
        match call() {
            Ok(done) => return done,
            Err(_) => thread::yield_now(),
        }
    }
}

/// A message with its number in it, by name.
fn message(heap: &Heap<'_>, number: u32) -> Result<Name, Error> {
    let block = heap.allocate(8 + number as usize % 200)?;
    block.write(0, &number.to_le_bytes())?;
    Ok(block.into_name())
}

fn main() -> Result<(), Error> {
    let mut heap = Heap::open(Level::Four, 1, Heap::words_for(Level::Four, UNDER_WAY, 207)?)?;
    let (mut to_second, at_second) = lane(UNDER_WAY)?;
    let (from_second, mut at_first) = lane(UNDER_WAY)?;
    let second = thread::spawn(move || send_back(at_second, from_second));
    let (mut sent, mut back) = (0, 0);
    while back < MESSAGES {
        if sent < MESSAGES && sent - back < UNDER_WAY {
            to_second.put(message(&heap, sent)?)?;
            sent += 1;
        }
        while let Ok(name) = at_first.take() {
            assert_eq!(heap.payload(name)?[..4], back.to_le_bytes());
            heap.release(name)?;
            back += 1;
        }
    }
    second.join().expect("the second thread ends");
    println!("{back} messages came back in order, and {} blocks are live", heap.report()?.live_blocks);
    Ok(())
}
