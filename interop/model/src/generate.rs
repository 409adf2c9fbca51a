//! Seeded inputs, arbitrary and near-valid, for every public function.
//! One seed gives one and the same stream of inputs on every machine.

mod calls;
mod case;
mod cpd;
mod css;
mod directories;
mod fields;
mod halves;
mod list;
mod mail;
mod mail_files;
mod mail_runs;
mod message;
mod odd;
mod places;
mod records;
mod repeats;
mod requests;
mod rooms;
mod state;
mod troubles;
mod twos;
mod walls;
mod wraps;

pub use calls::{
    every_descriptor, every_empty, every_message_length, every_size, every_state, every_type,
};
pub use case::{buffer_length, case, case_for, disallowed_length};
pub use cpd::{cpd_case, CpdCase};
pub use css::{css_blob, every_length, one_off, wrapping_images};
pub use directories::{
    directory_of, every_header_length, every_name_bit, every_name_length, every_part_length,
    every_upper_bit, every_wrap,
};
pub use fields::{every_field, every_message};
pub use halves::{every_left, every_left_place};
pub use list::{operations, output};
pub use mail::{
    any_file, any_run, damage_bytes, damage_forms, edge_numbers, forms_of, kept, kept_messages,
    kept_of, mail_case, MailCase,
};
pub use mail_files::{
    every_cut, every_damaged_byte, every_damaged_number, every_form, every_kept_number,
    every_short_file,
};
pub use mail_runs::{
    every_added_place, every_bound, every_damaged_dword, every_direction, every_kept_header,
    every_kept_length, every_kept_room, every_long_room,
};
pub use message::{fields, malformed, message, near_malformed, well_formed, well_formed_of};
pub use odd::{odd_channel, odd_operation, odd_sides};
pub use places::every_place;
pub use records::{
    every_fence_bit, every_fence_twice, every_flag, every_free_place, every_last, every_order,
    every_record_count, every_reply, every_reply_message, every_reply_place, every_skip,
};
pub use repeats::{
    every_misplaced_name, every_near_name, every_repeat, every_repeat_cut, every_repeated_length,
    every_uncounted_name,
};
pub use requests::{
    every_asked_room, every_reply_n, every_request, every_ring, every_sum, every_wrapped_sum,
    no_channel, request, request_of,
};
pub use rooms::{asked_room, fresh_n, reply_n};
pub use state::{break_state, random_state, receiving, sending};
pub use troubles::every_trouble;
pub use twos::every_two;
pub use walls::{any_table, half, sound_table, wall_call, wall_case, wall_reply, WallCase};

/// The splitmix64 generator.
#[derive(Clone, Debug)]
pub struct Rng(u64);

impl Rng {
    pub fn new(seed: u64) -> Rng {
        Rng(seed)
    }

    pub fn draw(&mut self) -> u64 {
        self.0 = self.0.wrapping_add(0x9E37_79B9_7F4A_7C15);
        let mut z = self.0;
        z = (z ^ (z >> 30)).wrapping_mul(0xBF58_476D_1CE4_E5B9);
        z = (z ^ (z >> 27)).wrapping_mul(0x94D0_49BB_1331_11EB);
        z ^ (z >> 31)
    }

    pub fn word(&mut self) -> u32 {
        (self.draw() >> 32) as u32
    }

    /// A number from 0 to `bound` - 1; `bound` at least 1.
    pub fn below(&mut self, bound: u64) -> u64 {
        self.draw() % bound
    }

    /// A number from `low` to `high`, both included.
    pub fn between(&mut self, low: u64, high: u64) -> u64 {
        low + self.below(high - low + 1)
    }

    /// True `part` times in `of`.
    pub fn chance(&mut self, part: u64, of: u64) -> bool {
        self.below(of) < part
    }

    pub fn pick<T: Copy>(&mut self, from: &[T]) -> T {
        from[self.below(from.len() as u64) as usize]
    }

    /// Any u32, the ends and powers of two more often.
    pub fn edgy(&mut self) -> u32 {
        match self.below(4) {
            0 => self.pick(&[0, 1, 2, u32::MAX, u32::MAX - 1, 1 << 31, i32::MAX as u32]),
            1 => 1u32.rotate_left(self.below(32) as u32),
            2 => self.below(1 << 12) as u32,
            _ => self.word(),
        }
    }

    pub fn words(&mut self, count: usize) -> Vec<u32> {
        (0..count).map(|_| self.word()).collect()
    }

    pub fn bytes(&mut self, count: usize) -> Vec<u8> {
        (0..count).map(|_| self.draw() as u8).collect()
    }
}
