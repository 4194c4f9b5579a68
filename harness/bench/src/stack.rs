//! How deep a call goes: it runs on a stack of its own that is painted before and looked at afterwards.

use std::hint::black_box;

/// Bytes of the stack, and how many of them are painted.
const WHOLE: usize = 24 << 20;
const PAINTED: usize = 16 << 20;
/// Bytes left alone below the place where painting is done from.
const NEAR: usize = 1024;
const PAINT: u64 = 0xa5c3_5a3c_9669_f00f;

/// Runs the work on a painted stack. Gives its result and the bytes of stack it used, in steps of 8 above 1024.
pub fn deepest<T: Send>(work: impl FnOnce() -> T + Send) -> (T, usize) {
    std::thread::scope(|scope| {
        let body = move || {
            let here = black_box(0u64);
            let top = black_box(&here) as *const u64 as usize & !7;
            paint(top);
            let result = black_box(work)();
            (result, used(top))
        };
        let builder = std::thread::Builder::new().stack_size(WHOLE);
        builder.spawn_scoped(scope, body).expect("a thread starts").join().expect("the work ends well")
    })
}

fn words(top: usize) -> impl Iterator<Item = usize> {
    (top - PAINTED..top - NEAR).step_by(8)
}

// The words lie below everything in use on this thread's stack, which has WHOLE bytes: painting disturbs nothing, and
// what a later call writes there is dead when it is read.

#[inline(never)]
fn paint(top: usize) {
    let lowest_in_use = black_box(0u8);
    let limit = black_box(&lowest_in_use) as *const u8 as usize - 512;
    for word in words(top).take_while(|&word| word < limit) {
        unsafe { std::ptr::write_volatile(word as *mut u64, PAINT) };
    }
}

#[inline(never)]
fn used(top: usize) -> usize {
    let touched = words(top).find(|&word| unsafe { std::ptr::read_volatile(word as *const u64) } != PAINT);
    touched.map_or(NEAR, |word| top - word)
}

#[cfg(test)]
mod tests {
    use super::*;

    #[inline(never)]
    fn down(levels: usize) -> u8 {
        let room = black_box([levels as u8; 1000]);
        if levels == 0 {
            room[0]
        } else {
            down(levels - 1).wrapping_add(room[levels % 1000])
        }
    }

    #[test]
    fn deeper_is_more() {
        let (_, shallow) = deepest(|| down(10));
        let (_, deep) = deepest(|| down(1000));
        assert!((10_000..30_000).contains(&shallow), "{shallow}");
        assert!((1_000_000..1_300_000).contains(&deep), "{deep}");
    }
}
