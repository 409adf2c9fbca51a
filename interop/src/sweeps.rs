//! Sweeps: inputs made on purpose, one for each member of a set and each side of
//! a boundary, so that none of them is left to chance.

use crate::ages::check_ages;
use crate::calls::check_case;
use crate::firmware::{check_css_blob, check_directory};
use crate::guc::{self, constants::GUC_INTERFACE};
use crate::mail;
use crate::messages::{check_fields, check_message};
use crate::same::{same, Outcome};
use crate::tally::Tally;
use crate::wall_lists::check_around;
use crate::walls::check_wall_case;
use model::generate::{self, CpdCase, MailCase, Rng, WallCase};
use model::run::Case;

/// All inputs of one sweep.
type Sweep<T> = fn(&mut Rng) -> Vec<T>;

/// Calls of the channel.
const CALLS: [Sweep<Case>; 10] = [
    generate::every_message_length,
    generate::every_type,
    generate::every_size,
    generate::every_descriptor,
    generate::every_state,
    generate::every_place,
    generate::every_empty,
    generate::every_two,
    generate::every_left,
    generate::every_left_place,
];

/// Calls of a wall.
const WALLS: [Sweep<WallCase>; 18] = [
    generate::every_record_count,
    generate::every_skip,
    generate::every_last,
    generate::every_free_place,
    generate::every_reply_place,
    generate::every_reply,
    generate::every_reply_message,
    generate::every_flag,
    generate::every_fence_twice,
    generate::every_fence_bit,
    generate::every_order,
    generate::every_sum,
    generate::every_wrapped_sum,
    generate::every_asked_room,
    generate::every_reply_n,
    generate::every_request,
    generate::every_ring,
    generate::every_trouble,
];

/// Calls of a record to mail home.
const MAIL: [Sweep<MailCase>; 14] = [
    generate::every_form,
    generate::every_kept_number,
    generate::every_cut,
    generate::every_damaged_byte,
    generate::every_damaged_number,
    generate::every_short_file,
    generate::every_kept_length,
    generate::every_direction,
    generate::every_kept_header,
    generate::every_damaged_dword,
    generate::every_kept_room,
    generate::every_long_room,
    generate::every_added_place,
    generate::every_bound,
];

/// CSS images.
const IMAGES: [Sweep<Vec<u8>>; 3] =
    [generate::every_length, generate::one_off, generate::wrapping_images];

/// Directories with a name to seek.
const DIRECTORIES: [Sweep<CpdCase>; 12] = [
    generate::every_name_bit,
    generate::every_name_length,
    generate::every_header_length,
    generate::every_part_length,
    generate::every_upper_bit,
    generate::every_wrap,
    generate::every_repeat,
    generate::every_repeat_cut,
    generate::every_repeated_length,
    generate::every_near_name,
    generate::every_misplaced_name,
    generate::every_uncounted_name,
];

/// All sweeps of the channel and of messages, and the interface's version.
pub fn check_channel(rng: &mut Rng, tally: &mut Tally) -> Outcome {
    same("version of the interface", guc::interface(), GUC_INTERFACE)?;
    tally.mark("guc_interface_3 answered 3", 1);
    for sweep in CALLS {
        for case in sweep(rng) {
            check_case(rng, tally, case)?;
        }
    }
    for message in generate::every_message(rng) {
        check_message(rng, tally, &message)?;
    }
    for fields in generate::every_field(rng) {
        check_fields(rng, tally, fields)?;
    }
    Ok(())
}

/// All sweeps of a wall, and ages; in one of six all fences one after another.
pub fn check_wall(rng: &mut Rng, tally: &mut Tally) -> Outcome {
    for sweep in WALLS {
        for case in sweep(rng) {
            check_wall_case(rng, tally, case)?;
        }
    }
    if rng.chance(1, 6) {
        check_around(rng, tally)?;
    }
    check_ages(rng, tally)
}

/// All sweeps of a record to mail home.
pub fn check_mail(rng: &mut Rng, tally: &mut Tally) -> Outcome {
    for sweep in MAIL {
        for case in sweep(rng) {
            mail::check_case(rng, tally, case)?;
        }
    }
    Ok(())
}

/// All sweeps of firmware; an image is also judged as the part of a directory.
pub fn check_firmware(rng: &mut Rng, tally: &mut Tally) -> Outcome {
    check_css_blob(rng, tally, &[])?;
    check_directory(rng, tally, &[], b"huc_fw")?;
    for sweep in IMAGES {
        for image in sweep(rng) {
            check_css_blob(rng, tally, &image)?;
            let case = generate::directory_of(rng, b"huc_fw", image);
            check_directory(rng, tally, &case.blob, &case.name)?;
        }
    }
    for sweep in DIRECTORIES {
        for case in sweep(rng) {
            check_directory(rng, tally, &case.blob, &case.name)?;
        }
    }
    Ok(())
}
