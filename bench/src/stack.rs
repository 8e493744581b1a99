//! The stack that a call uses: a stretch below the caller is marked, and what the call overwrote is counted.

const MARK: u8 = 0xa7;
const STRETCH: usize = 400_000;
/// Bytes just below the caller that the marking loop itself may use.
const OWN: usize = 2_048;

/// Marks the stretch below this frame, calls, and gives the bytes down to the lowest one overwritten.
#[inline(never)]
fn marked(call: &mut dyn FnMut()) -> usize {
    let here = std::ptr::addr_of!(call) as usize;
    let (low, high) = (here - STRETCH, here - OWN);
    for at in low..high {
        // The stretch lies in this thread's own stack, below every live frame.
        unsafe { (at as *mut u8).write_volatile(MARK) };
    }
    call();
    let lowest = (low..high).find(|&at| unsafe { (at as *const u8).read_volatile() } != MARK);
    here - lowest.unwrap_or(high)
}

/// The stack of a call in bytes, to within the frame of the measurement.
pub fn used(call: impl FnMut() + Send + 'static) -> usize {
    let mut call = call;
    let thread = std::thread::Builder::new()
        .stack_size(2 << 20)
        .spawn(move || marked(&mut call));
    thread.expect("a thread").join().expect("its result")
}
