//! The static library's builder, by its functions in C.

use crate::builds::{told, Outcome};
use crate::guard::Guarded;
use crate::margins::Margined;
use crate::unpack;
use second::retell::Call;
use second::Answer;
use std::ptr::{null, NonNull};

/// As many bytes as the function always takes there.
type Fixed = *const u8;
/// As many bytes as the length behind it says.
type Object = *const u8;

extern "C" {
    fn nbft_begin(
        state: *mut u8,
        out: *mut u8,
        room: usize,
        header: Fixed,
        counts: Fixed,
        signature: Object,
        length: usize,
    ) -> u32;
    fn nbft_host(state: *mut u8, out: *mut u8, room: usize, record: Fixed, nqn: Object, length: usize) -> u32;
    fn nbft_hfi(
        state: *mut u8,
        out: *mut u8,
        room: usize,
        record: Fixed,
        info: Fixed,
        name: Object,
        name_length: usize,
        extended_told: u8,
        extended: Fixed,
        iaid: Object,
        iaid_length: usize,
        duid: Object,
        duid_length: usize,
    ) -> u32;
    fn nbft_ssns(
        state: *mut u8,
        out: *mut u8,
        room: usize,
        record: Fixed,
        address: Object,
        address_length: usize,
        service: Object,
        service_length: usize,
        others: Object,
        others_length: usize,
        nqn: Object,
        nqn_length: usize,
        extended: Fixed,
        path: Object,
        path_length: usize,
    ) -> u32;
    fn nbft_security(
        state: *mut u8,
        out: *mut u8,
        room: usize,
        record: Fixed,
        at_6: Object,
        length_6: usize,
        at_12: Object,
        length_12: usize,
        at_18: Object,
        length_18: usize,
        at_24: Object,
        length_24: usize,
        at_30: Object,
        length_30: usize,
        at_36: Object,
        length_36: usize,
    ) -> u32;
    fn nbft_discovery(
        state: *mut u8,
        out: *mut u8,
        room: usize,
        record: Fixed,
        address: Object,
        address_length: usize,
        nqn: Object,
        nqn_length: usize,
    ) -> u32;
    fn nbft_leave(state: *mut u8, out: *mut u8, room: usize) -> u32;
    fn nbft_finish(state: *mut u8, out: *mut u8, room: usize) -> u32;
}

/// State, output and what is told, as they are lent to one call.
struct Lent<'a> {
    state: *mut u8,
    out: (*mut u8, usize),
    told: &'a [(*const u8, usize)],
}

impl Lent<'_> {
    /// Makes the call.
    ///
    /// # Safety
    ///
    /// Every pointer has as many bytes as its length says, `state` has 16, and `told` are the call's parts in order.
    unsafe fn make(&self, call: &Call) -> u32 {
        let Lent { state, out: (out, room), told } = *self;
        match (call, told) {
            (Call::Begin(..), &[(header, _), (counts, _), (object, length)]) => {
                nbft_begin(state, out, room, header, counts, object, length)
            }
            (Call::Host(..), &[(record, _), (nqn, length)]) => nbft_host(state, out, room, record, nqn, length),
            (Call::Hfi { .. }, &[(record, _), (info, _), a, (whether, _), (extended, _), b, c]) => {
                nbft_hfi(state, out, room, record, info, a.0, a.1, *whether, extended, b.0, b.1, c.0, c.1)
            }
            (Call::Ssns(..), &[(record, _), a, b, c, d, (extended, _), path]) => {
                nbft_ssns(state, out, room, record, a.0, a.1, b.0, b.1, c.0, c.1, d.0, d.1, extended, path.0, path.1)
            }
            (Call::Security(..), &[(record, _), a, b, c, d, e, f]) => {
                nbft_security(state, out, room, record, a.0, a.1, b.0, b.1, c.0, c.1, d.0, d.1, e.0, e.1, f.0, f.1)
            }
            (Call::Discovery(..), &[(record, _), a, b]) => nbft_discovery(state, out, room, record, a.0, a.1, b.0, b.1),
            (Call::Leave, &[]) => nbft_leave(state, out, room),
            (Call::Finish, &[]) => nbft_finish(state, out, room),
            _ => panic!("a call is told other parts"),
        }
    }
}

/// The library's call in this state, into a buffer that holds these bytes. What has no bytes is lent where nothing can
/// be read or written: at null, or at a place that dangles where the buffer's length is odd.
pub fn by_library(call: &Call, state: [u8; 16], buffer: &[u8]) -> Result<Outcome, String> {
    let nothing: *const u8 = if buffer.len() % 2 == 0 { null() } else { NonNull::dangling().as_ptr() };
    let place = |bytes: &[u8]| if bytes.is_empty() { nothing } else { bytes.as_ptr() };
    let (mut state, mut out) = (Margined::new(&state), Margined::new(buffer));
    let copies: Vec<Vec<u8>> = told(call).iter().map(|part| part.to_vec()).collect();
    let start = if buffer.is_empty() { nothing.cast_mut() } else { out.within().as_mut_ptr() };
    let parts: Vec<(*const u8, usize)> = copies.iter().map(|copy| (place(copy), copy.len())).collect();
    let lent = Lent { state: state.within().as_mut_ptr(), out: (start, buffer.len()), told: &parts };
    // SAFETY: pointers and lengths are those of vectors that nothing else holds, or no byte is lent.
    let answer = unpack(unsafe { lent.make(call) });
    if told(call) != copies {
        return Err("the library changes what it is told".to_string());
    }
    if !state.margins_stay() || !out.margins_stay() {
        return Err("the library writes outside state and buffer".to_string());
    }
    let state = state.within().to_vec().try_into().expect("a state has sixteen bytes");
    Ok(Outcome { answer, state, buffer: out.within().to_vec() })
}

/// As many as a call lends: state, output and at most seven parts.
pub type Pages = [Guarded; 9];

/// Each holds the longest object that is told: one that is dropped can be more than twice as long as any that is taken.
pub fn pages() -> Pages {
    std::array::from_fn(|_| Guarded::new(1 << 18))
}

/// The same twice: all that is lent ends at, then all starts behind, a page that nothing may touch.
pub fn by_library_in_pages(pages: &mut Pages, call: &Call, state: [u8; 16], buffer: &[u8]) -> Result<Outcome, String> {
    let ending = call_in_pages(pages, Guarded::ending, call, state, buffer);
    let starting = call_in_pages(pages, Guarded::starting, call, state, buffer);
    if ending == starting {
        Ok(ending)
    } else {
        Err("the library's call depends on the place".to_string())
    }
}

fn call_in_pages(
    pages: &mut Pages,
    place: impl for<'p> Fn(&'p mut Guarded, &[u8]) -> &'p mut [u8],
    call: &Call,
    state: [u8; 16],
    buffer: &[u8],
) -> Outcome {
    let [state_pages, out_pages, told_pages @ ..] = pages;
    let (state, out) = (place(state_pages, &state), place(out_pages, buffer));
    let parts = told(call);
    let pointers = parts.iter().zip(told_pages).map(|(part, pages)| (place(pages, part).as_ptr(), part.len()));
    let pointers: Vec<(*const u8, usize)> = pointers.collect();
    let lent = Lent { state: state.as_mut_ptr(), out: (out.as_mut_ptr(), out.len()), told: &pointers };
    // SAFETY: each pointer and its length are those of a part of pages of its own, which stay open.
    let answer = unpack(unsafe { lent.make(call) });
    let state = state.to_vec().try_into().expect("a state has sixteen bytes");
    Outcome { answer, state, buffer: out.to_vec() }
}

/// A call with the places and lengths of what it is told.
type Placed<'a> = (&'a Call, Vec<(*const u8, usize)>);

/// Calls that can be made over and over with nothing copied.
pub struct Run<'a> {
    calls: Vec<Placed<'a>>,
}

impl<'a> Run<'a> {
    pub fn of(calls: &'a [Call]) -> Run<'a> {
        let placed = |call| (call, told(call).iter().map(|part| (part.as_ptr(), part.len())).collect());
        Run { calls: calls.iter().map(placed).collect() }
    }

    /// All calls from the empty state on, until one is refused.
    pub fn make(&self, out: &mut [u8]) -> (Answer, [u8; 16]) {
        self.make_from([0; 16], out)
    }

    /// The same from a state that earlier calls have left, into the buffer that they have left.
    pub fn make_from(&self, mut state: [u8; 16], out: &mut [u8]) -> (Answer, [u8; 16]) {
        for (call, told) in &self.calls {
            let lent = Lent { state: state.as_mut_ptr(), out: (out.as_mut_ptr(), out.len()), told };
            // SAFETY: the parts stand in calls that are borrowed as long as this value lives.
            let answer = unpack(unsafe { lent.make(call) });
            if !answer.is_done() {
                return (answer, state);
            }
        }
        (Answer::DONE, state)
    }
}
