//! The library's functions over rows of words, as docs/BUFFERS.md describes them.
//!
//! Each answers 0, or the number of a [`Refusal`](crate::Refusal), and then no word of any row has changed. The rows may have any
//! length and hold any words: what does not fit is refused.

// SAFETY of every call below: the library's functions have no preconditions. Each tests every length before it reads past it, takes
// any words, and neither keeps a pointer nor allocates nor unwinds. A slice gives a pointer to as many initialised words as its
// length says; rows lent to be written are `&mut`, so no other row overlaps them.

unsafe extern "C" {
    fn sardinerod_lay_out(graph: *mut u32, graph_len: usize, capacity: u32) -> u32;
    fn sardinerod_add(
        graph: *mut u32,
        graph_len: usize,
        request: *const u32,
        request_len: usize,
        answer: *mut u32,
        answer_len: usize,
    ) -> u32;
    fn sardinerod_step(
        settings: *const u32,
        settings_len: usize,
        colliders: *const u32,
        colliders_len: usize,
        bodies: *const u32,
        bodies_len: usize,
        proposals: *const u32,
        proposals_len: usize,
        shares: *const u32,
        shares_len: usize,
        graph: *mut u32,
        graph_len: usize,
        bits: *mut u64,
        bits_len: usize,
        events: *mut u32,
        events_len: usize,
        changes: *mut u32,
        changes_len: usize,
        distances: *mut u32,
        distances_len: usize,
        answer: *mut u32,
        answer_len: usize,
    ) -> u32;
    fn sardinerod_look_up(
        graph: *const u32,
        graph_len: usize,
        id: u32,
        answer: *mut u32,
        answer_len: usize,
    ) -> u32;
    fn sardinerod_remove(graph: *mut u32, graph_len: usize, id: u32) -> u32;
    fn sardinerod_prune(
        normal: *const u32,
        normal_len: usize,
        points: *const u32,
        points_len: usize,
        count: u32,
        answer: *mut u32,
        answer_len: usize,
    ) -> u32;
    fn sardinerod_play_line(
        trace: *const u8,
        trace_len: usize,
        player: *mut u64,
        player_len: usize,
        graph: *mut u32,
        graph_len: usize,
        settings: *mut u32,
        settings_len: usize,
        colliders: *mut u32,
        colliders_len: usize,
        bodies: *mut u32,
        bodies_len: usize,
        proposals: *mut u32,
        proposals_len: usize,
        shares: *mut u32,
        shares_len: usize,
        bits: *mut u64,
        bits_len: usize,
        events: *mut u32,
        events_len: usize,
        changes: *mut u32,
        changes_len: usize,
        distances: *mut u32,
        distances_len: usize,
        out: *mut u8,
        out_len: usize,
        answer: *mut u64,
        answer_len: usize,
    ) -> u32;
    fn sardinerod_lengths(capacity: u32, answer: *mut u32, answer_len: usize) -> u32;
    fn sardinerod_layout(answer: *mut u32, answer_len: usize) -> u32;
}

/// Lays out an empty graph of that capacity. Refusal 1.
pub fn lay_out(graph: &mut [u32], capacity: u32) -> u32 {
    // SAFETY: see the top of this file.
    unsafe { sardinerod_lay_out(graph.as_mut_ptr(), graph.len(), capacity) }
}

/// Adds a pair; `answer` is its id. Refusals 1 to 5, in this order.
pub fn add(graph: &mut [u32], request: &[u32], answer: &mut [u32]) -> u32 {
    // SAFETY: see the top of this file.
    unsafe {
        sardinerod_add(
            graph.as_mut_ptr(),
            graph.len(),
            request.as_ptr(),
            request.len(),
            answer.as_mut_ptr(),
            answer.len(),
        )
    }
}

/// Updates every active contact and makes the status pass; `answer` is events written, changes written, contacts recycled.
/// Refusals 1, 2, 6, 7, in this order.
#[allow(clippy::too_many_arguments)]
pub fn step(
    settings: &[u32],
    colliders: &[u32],
    bodies: &[u32],
    proposals: &[u32],
    shares: &[u32],
    graph: &mut [u32],
    bits: &mut [u64],
    events: &mut [u32],
    changes: &mut [u32],
    distances: &mut [u32],
    answer: &mut [u32],
) -> u32 {
    // SAFETY: see the top of this file.
    unsafe {
        sardinerod_step(
            settings.as_ptr(),
            settings.len(),
            colliders.as_ptr(),
            colliders.len(),
            bodies.as_ptr(),
            bodies.len(),
            proposals.as_ptr(),
            proposals.len(),
            shares.as_ptr(),
            shares.len(),
            graph.as_mut_ptr(),
            graph.len(),
            bits.as_mut_ptr(),
            bits.len(),
            events.as_mut_ptr(),
            events.len(),
            changes.as_mut_ptr(),
            changes.len(),
            distances.as_mut_ptr(),
            distances.len(),
            answer.as_mut_ptr(),
            answer.len(),
        )
    }
}

/// Looks up a contact's edge; `answer` is its ten words. Refusals 1, 2, 9, in this order.
pub fn look_up(graph: &[u32], id: u32, answer: &mut [u32]) -> u32 {
    // SAFETY: see the top of this file.
    unsafe {
        sardinerod_look_up(
            graph.as_ptr(),
            graph.len(),
            id,
            answer.as_mut_ptr(),
            answer.len(),
        )
    }
}

/// Removes a contact. Refusals 1, 2, 9, in this order.
pub fn remove(graph: &mut [u32], id: u32) -> u32 {
    // SAFETY: see the top of this file.
    unsafe { sardinerod_remove(graph.as_mut_ptr(), graph.len(), id) }
}

/// Prunes the first `count` points; `answer` is how many stay and their numbers, 0 past them. Refusals 1, 8, 6, in this order.
pub fn prune(normal: &[u32], points: &[u32], count: u32, answer: &mut [u32]) -> u32 {
    // SAFETY: see the top of this file.
    unsafe {
        sardinerod_prune(
            normal.as_ptr(),
            normal.len(),
            points.as_ptr(),
            points.len(),
            count,
            answer.as_mut_ptr(),
            answer.len(),
        )
    }
}

/// Plays the line of `trace` at the player's place; `answer` is 1 if the trace had ended before, else 0, and how many bytes are
/// printed, from the start of `out`. From `settings` to `shares` the rows are for work. Refusal 1.
#[allow(clippy::too_many_arguments)]
pub fn play_line(
    trace: &[u8],
    player: &mut [u64],
    graph: &mut [u32],
    settings: &mut [u32],
    colliders: &mut [u32],
    bodies: &mut [u32],
    proposals: &mut [u32],
    shares: &mut [u32],
    bits: &mut [u64],
    events: &mut [u32],
    changes: &mut [u32],
    distances: &mut [u32],
    out: &mut [u8],
    answer: &mut [u64],
) -> u32 {
    // SAFETY: see the top of this file.
    unsafe {
        sardinerod_play_line(
            trace.as_ptr(),
            trace.len(),
            player.as_mut_ptr(),
            player.len(),
            graph.as_mut_ptr(),
            graph.len(),
            settings.as_mut_ptr(),
            settings.len(),
            colliders.as_mut_ptr(),
            colliders.len(),
            bodies.as_mut_ptr(),
            bodies.len(),
            proposals.as_mut_ptr(),
            proposals.len(),
            shares.as_mut_ptr(),
            shares.len(),
            bits.as_mut_ptr(),
            bits.len(),
            events.as_mut_ptr(),
            events.len(),
            changes.as_mut_ptr(),
            changes.len(),
            distances.as_mut_ptr(),
            distances.len(),
            out.as_mut_ptr(),
            out.len(),
            answer.as_mut_ptr(),
            answer.len(),
        )
    }
}

/// The lengths of a step's ten rows for a capacity, in the order of [`step`]'s arguments. Refusal 1.
pub fn lengths(capacity: u32, answer: &mut [u32]) -> u32 {
    // SAFETY: see the top of this file.
    unsafe { sardinerod_lengths(capacity, answer.as_mut_ptr(), answer.len()) }
}

/// The values of [`layout::TABLE`](crate::layout::TABLE), as the library has them. Refusal 1.
pub fn layout(answer: &mut [u32]) -> u32 {
    // SAFETY: see the top of this file.
    unsafe { sardinerod_layout(answer.as_mut_ptr(), answer.len()) }
}
