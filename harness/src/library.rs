//! The C interface of the proved search, and safe functions over it. Nothing checks these
//! declarations against the Rattle source: they copy include/golfcedar.h by hand, and stand in this
//! file only.

use crate::answer::Answer;

mod c {
    extern "C" {
        pub fn golfcedar_version() -> u32;

        pub fn golfcedar_reason(
            number: u32,
            text: *mut u8,
            text_len: usize,
            value: *mut u64,
        ) -> u32;

        pub fn golfcedar_check_problem(
            old_graph: *const u8,
            old_len: usize,
            new_graph: *const u8,
            new_len: usize,
            substitutes: *const u8,
            substitutes_len: usize,
            value: *mut u64,
            about: *mut u64,
        ) -> u32;

        pub fn golfcedar_check_graph(graph: *const u8, graph_len: usize, value: *mut u64) -> u32;

        pub fn golfcedar_check_mapping(
            old_graph: *const u8,
            old_len: usize,
            new_graph: *const u8,
            new_len: usize,
            substitutes: *const u8,
            substitutes_len: usize,
            mapping: *const u8,
            mapping_len: usize,
            value: *mut u64,
            earlier: *mut u64,
        ) -> u32;

        pub fn golfcedar_start(
            old_graph: *const u8,
            old_len: usize,
            new_graph: *const u8,
            new_len: usize,
            substitutes: *const u8,
            substitutes_len: usize,
            connected: u32,
            minimum: u8,
            checkpoint: *mut u8,
            checkpoint_len: usize,
            value: *mut u64,
        ) -> u32;

        pub fn golfcedar_resume(
            old_graph: *const u8,
            old_len: usize,
            new_graph: *const u8,
            new_len: usize,
            substitutes: *const u8,
            substitutes_len: usize,
            connected: u32,
            checkpoint: *const u8,
            checkpoint_len: usize,
            budget: u64,
            workspace: *mut u64,
            workspace_words: usize,
            next: *mut u8,
            next_len: usize,
            value: *mut u64,
            ceiling: *mut u64,
        ) -> u32;

        pub fn golfcedar_read_out(
            old_graph: *const u8,
            old_len: usize,
            new_graph: *const u8,
            new_len: usize,
            substitutes: *const u8,
            substitutes_len: usize,
            connected: u32,
            checkpoint: *const u8,
            checkpoint_len: usize,
            mapping: *mut u8,
            mapping_len: usize,
            value: *mut u64,
            steps: *mut u64,
            size: *mut u64,
            ceiling: *mut u64,
        ) -> u32;

        pub fn golfcedar_descend_start(
            old_graph: *const u8,
            old_len: usize,
            new_graph: *const u8,
            new_len: usize,
            substitutes: *const u8,
            substitutes_len: usize,
            connected: u32,
            floor: u8,
            checkpoint: *mut u8,
            checkpoint_len: usize,
            value: *mut u64,
        ) -> u32;

        pub fn golfcedar_descend_resume(
            old_graph: *const u8,
            old_len: usize,
            new_graph: *const u8,
            new_len: usize,
            substitutes: *const u8,
            substitutes_len: usize,
            connected: u32,
            floor: u8,
            checkpoint: *const u8,
            checkpoint_len: usize,
            budget: u64,
            workspace: *mut u64,
            workspace_words: usize,
            next: *mut u8,
            next_len: usize,
            value: *mut u64,
            ceiling: *mut u64,
            visits: *mut u64,
        ) -> u32;

        pub fn golfcedar_clique(
            old_graph: *const u8,
            old_len: usize,
            new_graph: *const u8,
            new_len: usize,
            substitutes: *const u8,
            substitutes_len: usize,
            minimum: u8,
            mapping: *mut u8,
            mapping_len: usize,
            value: *mut u64,
            size: *mut u64,
        ) -> u32;

        pub fn golfcedar_step_limit(new_order: u64, old_order: u64, value: *mut u64) -> u32;

        pub fn golfcedar_to_edition_2(
            graph: *const u8,
            graph_len: usize,
            out: *mut u8,
            out_len: usize,
            value: *mut u64,
        ) -> u32;

        pub fn golfcedar_to_edition_1(
            graph: *const u8,
            graph_len: usize,
            out: *mut u8,
            out_len: usize,
            value: *mut u64,
        ) -> u32;
    }
}

/// No graph has more bytes.
pub const GRAPH_BYTES: usize = 8515;
/// No graph of edition 1 has more bytes.
pub const EDITION_1_BYTES: usize = 8449;
pub const CHECKPOINT_BYTES: usize = 270;
pub const WORKSPACE_WORDS: usize = 4160;
pub const SUBSTITUTES_BYTES: usize = 1024;
/// No refusal's text has more bytes.
pub const REASON_BYTES: usize = 80;
/// By this list only equal labels agree.
pub const NO_SUBSTITUTES: &[u8] = &[];
/// As `connected`: the first search, for any common subgraph.
pub const FIRST_SEARCH: u32 = 0;
/// As `connected`, like every other number but 0: the second search, for connected ones.
pub const CONNECTED_SEARCH: u32 = 1;
pub const MAX_VERTICES: usize = 64;
/// Clique branching takes at most so many old vertices.
pub const CLIQUE_VERTICES: usize = 8;
pub const UNMAPPED: u8 = 255;

/// What a number result holds before a call: a result that is not stored shows.
const NOT_STORED: u64 = 0xA5A5_A5A5_A5A5_A5A5;

pub fn version() -> u32 {
    unsafe { c::golfcedar_version() }
}

pub fn reason(number: u32, text: &mut [u8]) -> Answer {
    let mut value = NOT_STORED;
    let number =
        unsafe { c::golfcedar_reason(number, text.as_mut_ptr(), text.len(), &raw mut value) };
    Answer {
        number,
        value,
        ..Answer::default()
    }
}

pub fn check_problem(old: &[u8], new: &[u8], substitutes: &[u8]) -> Answer {
    let [mut value, mut about] = [NOT_STORED; 2];
    let number = unsafe {
        c::golfcedar_check_problem(
            old.as_ptr(),
            old.len(),
            new.as_ptr(),
            new.len(),
            substitutes.as_ptr(),
            substitutes.len(),
            &raw mut value,
            &raw mut about,
        )
    };
    Answer {
        number,
        value,
        about,
        ..Answer::default()
    }
}

pub fn check_graph(graph: &[u8]) -> Answer {
    let mut value = NOT_STORED;
    let number = unsafe { c::golfcedar_check_graph(graph.as_ptr(), graph.len(), &raw mut value) };
    Answer {
        number,
        value,
        ..Answer::default()
    }
}

pub fn check_mapping(old: &[u8], new: &[u8], substitutes: &[u8], mapping: &[u8]) -> Answer {
    let [mut value, mut earlier] = [NOT_STORED; 2];
    let number = unsafe {
        c::golfcedar_check_mapping(
            old.as_ptr(),
            old.len(),
            new.as_ptr(),
            new.len(),
            substitutes.as_ptr(),
            substitutes.len(),
            mapping.as_ptr(),
            mapping.len(),
            &raw mut value,
            &raw mut earlier,
        )
    };
    Answer {
        number,
        value,
        earlier,
        ..Answer::default()
    }
}

pub fn start(
    old: &[u8],
    new: &[u8],
    substitutes: &[u8],
    connected: u32,
    minimum: u8,
    checkpoint: &mut [u8],
) -> Answer {
    let mut value = NOT_STORED;
    let number = unsafe {
        c::golfcedar_start(
            old.as_ptr(),
            old.len(),
            new.as_ptr(),
            new.len(),
            substitutes.as_ptr(),
            substitutes.len(),
            connected,
            minimum,
            checkpoint.as_mut_ptr(),
            checkpoint.len(),
            &raw mut value,
        )
    };
    Answer {
        number,
        value,
        ..Answer::default()
    }
}

#[allow(clippy::too_many_arguments)]
pub fn resume(
    old: &[u8],
    new: &[u8],
    substitutes: &[u8],
    connected: u32,
    checkpoint: &[u8],
    budget: u64,
    workspace: &mut [u64],
    next: &mut [u8],
) -> Answer {
    let [mut value, mut ceiling] = [NOT_STORED; 2];
    let number = unsafe {
        c::golfcedar_resume(
            old.as_ptr(),
            old.len(),
            new.as_ptr(),
            new.len(),
            substitutes.as_ptr(),
            substitutes.len(),
            connected,
            checkpoint.as_ptr(),
            checkpoint.len(),
            budget,
            workspace.as_mut_ptr(),
            workspace.len(),
            next.as_mut_ptr(),
            next.len(),
            &raw mut value,
            &raw mut ceiling,
        )
    };
    Answer {
        number,
        value,
        ceiling,
        ..Answer::default()
    }
}

pub fn read_out(
    old: &[u8],
    new: &[u8],
    substitutes: &[u8],
    connected: u32,
    checkpoint: &[u8],
    mapping: &mut [u8],
) -> Answer {
    let [mut value, mut steps, mut size, mut ceiling] = [NOT_STORED; 4];
    let number = unsafe {
        c::golfcedar_read_out(
            old.as_ptr(),
            old.len(),
            new.as_ptr(),
            new.len(),
            substitutes.as_ptr(),
            substitutes.len(),
            connected,
            checkpoint.as_ptr(),
            checkpoint.len(),
            mapping.as_mut_ptr(),
            mapping.len(),
            &raw mut value,
            &raw mut steps,
            &raw mut size,
            &raw mut ceiling,
        )
    };
    Answer {
        number,
        value,
        steps,
        size,
        ceiling,
        ..Answer::default()
    }
}

pub fn descend_start(
    old: &[u8],
    new: &[u8],
    substitutes: &[u8],
    connected: u32,
    floor: u8,
    checkpoint: &mut [u8],
) -> Answer {
    let mut value = NOT_STORED;
    let number = unsafe {
        c::golfcedar_descend_start(
            old.as_ptr(),
            old.len(),
            new.as_ptr(),
            new.len(),
            substitutes.as_ptr(),
            substitutes.len(),
            connected,
            floor,
            checkpoint.as_mut_ptr(),
            checkpoint.len(),
            &raw mut value,
        )
    };
    Answer {
        number,
        value,
        ..Answer::default()
    }
}

#[allow(clippy::too_many_arguments)]
pub fn descend_resume(
    old: &[u8],
    new: &[u8],
    substitutes: &[u8],
    connected: u32,
    floor: u8,
    checkpoint: &[u8],
    budget: u64,
    workspace: &mut [u64],
    next: &mut [u8],
) -> Answer {
    let [mut value, mut ceiling, mut visits] = [NOT_STORED; 3];
    let number = unsafe {
        c::golfcedar_descend_resume(
            old.as_ptr(),
            old.len(),
            new.as_ptr(),
            new.len(),
            substitutes.as_ptr(),
            substitutes.len(),
            connected,
            floor,
            checkpoint.as_ptr(),
            checkpoint.len(),
            budget,
            workspace.as_mut_ptr(),
            workspace.len(),
            next.as_mut_ptr(),
            next.len(),
            &raw mut value,
            &raw mut ceiling,
            &raw mut visits,
        )
    };
    Answer {
        number,
        value,
        ceiling,
        visits,
        ..Answer::default()
    }
}

pub fn clique(
    old: &[u8],
    new: &[u8],
    substitutes: &[u8],
    minimum: u8,
    mapping: &mut [u8],
) -> Answer {
    let [mut value, mut size] = [NOT_STORED; 2];
    let number = unsafe {
        c::golfcedar_clique(
            old.as_ptr(),
            old.len(),
            new.as_ptr(),
            new.len(),
            substitutes.as_ptr(),
            substitutes.len(),
            minimum,
            mapping.as_mut_ptr(),
            mapping.len(),
            &raw mut value,
            &raw mut size,
        )
    };
    Answer {
        number,
        value,
        size,
        ..Answer::default()
    }
}

pub fn step_limit(new_order: u64, old_order: u64) -> Answer {
    let mut value = NOT_STORED;
    let number = unsafe { c::golfcedar_step_limit(new_order, old_order, &raw mut value) };
    Answer {
        number,
        value,
        ..Answer::default()
    }
}

pub fn to_edition_2(graph: &[u8], out: &mut [u8]) -> Answer {
    moved(c::golfcedar_to_edition_2, graph, out)
}

pub fn to_edition_1(graph: &[u8], out: &mut [u8]) -> Answer {
    moved(c::golfcedar_to_edition_1, graph, out)
}

type Mover = unsafe extern "C" fn(*const u8, usize, *mut u8, usize, *mut u64) -> u32;

fn moved(by: Mover, graph: &[u8], out: &mut [u8]) -> Answer {
    let mut value = NOT_STORED;
    let number = unsafe {
        by(
            graph.as_ptr(),
            graph.len(),
            out.as_mut_ptr(),
            out.len(),
            &raw mut value,
        )
    };
    Answer {
        number,
        value,
        ..Answer::default()
    }
}
