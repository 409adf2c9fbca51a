//! Generated inputs: every number comes up often, and what the paper says of
//! all answers holds of each (what is left, what the state becomes, L).

use model::channel::{Answer, State, HEAD, STATUS, TAIL};
use model::generate::{
    case_for, cpd_case, css_blob, every_misplaced_name, every_name_bit, every_near_name,
    every_repeat, every_repeat_cut, every_repeated_length, every_uncounted_name, fields, message,
    well_formed_of, CpdCase, Rng,
};
use model::message::{is_message, pack, unpack, TYPES};
use model::run::{Case, Op};
use model::{cpd, css};

/// The numbers a function can answer with a descriptor of 16 dwords.
fn numbers(op: Op) -> &'static [usize] {
    match op {
        Op::SendLook | Op::SendWhole | Op::SendTwo => &[0, 2, 3, 4, 6, 7, 8, 10],
        Op::SendMove | Op::SendPublish | Op::ReceiveMove => &[0, 2, 3, 12],
        Op::SendMoveAll | Op::ReceiveMoveAll => &[0, 2, 3],
        Op::ReceiveLook => &[0, 2, 3, 6, 7, 8, 9, 11],
        Op::ReceivePublish => &[0, 2, 3, 5, 12, 13],
        Op::ReceiveWhole | Op::ReceiveTwo => &[0, 2, 3, 5, 6, 7, 8, 9, 11, 13],
        Op::Open | Op::OpenTwo => &[0, 2],
    }
}

/// The "Leaves" column, and "The state comes back unchanged, except after 13".
fn check_refusal(before: &Case, after: &Case, answer: &Answer) {
    let mut desc = before.desc.clone();
    match answer.code {
        7 => desc[STATUS] = 1,
        8 => desc[STATUS] = 4,
        9 => desc[STATUS] = 2,
        13 => desc[HEAD] = answer.next.own,
        _ => {}
    }
    assert_eq!(after.desc, desc);
    assert_eq!((&after.buf, &after.out), (&before.buf, &before.out));
    assert_eq!(answer.len, 0);
    let next = match answer.code {
        13 => State::idle(before.state.n, answer.next.own),
        _ if before.op.opens() => State::ZERO,
        _ => before.state,
    };
    assert_eq!(answer.next, next);
}

/// What an accepted call may change.
fn check_accepted(before: &Case, after: &Case, answer: &Answer) {
    let changed: Vec<usize> = (0..16).filter(|&at| before.desc[at] != after.desc[at]).collect();
    let stores = before.buf.iter().zip(&after.buf).filter(|(a, b)| a != b).count();
    let (places, most): (&[usize], usize) = match before.op {
        Op::SendMove => (&[], 1),
        Op::SendMoveAll => (&[], (before.state.len - before.state.moved) as usize),
        Op::SendPublish => (&[TAIL], 0),
        Op::SendWhole | Op::SendTwo => (&[TAIL], before.msg.len()),
        Op::ReceivePublish | Op::ReceiveWhole | Op::ReceiveTwo => (&[HEAD], 0),
        Op::Open | Op::OpenTwo => (&[0, 1, 2, 3, 4, 5, 6, 7, 8, 9, 10, 11, 12, 13, 14, 15], 0),
        _ => (&[], 0),
    };
    assert!(changed.iter().all(|at| places.contains(at)));
    assert!(stores <= most);
    let lays = matches!(before.op, Op::ReceivePublish | Op::ReceiveWhole | Op::ReceiveTwo);
    assert_eq!(answer.len > 0, lays);
    let laid = answer.len as usize;
    assert!(!lays || is_message(&after.out[..laid]));
    assert_eq!(after.out[laid..], before.out[laid..]);
}

#[test]
fn every_number_of_every_call() {
    let mut rng = Rng::new(21);
    for op in Op::ALL {
        let mut counts = [0u32; 22];
        for _ in 0..6000 {
            let before = case_for(&mut rng, op);
            let mut after = before.clone();
            let answer = after.run();
            counts[answer.code as usize] += 1;
            assert_eq!((&after.msg, &after.state), (&before.msg, &before.state));
            if answer.code == 0 {
                check_accepted(&before, &after, &answer);
            } else {
                check_refusal(&before, &after, &answer);
            }
        }
        println!("{op:?}: {counts:?}");
        for (code, &count) in counts.iter().enumerate() {
            let expected = numbers(op).contains(&code);
            assert!(if expected { count >= 60 } else { count == 0 }, "{op:?} {code}: {count}");
        }
    }
}

/// C can't lend such a descriptor; the paper's answer to it is the lowest.
#[test]
fn a_descriptor_of_other_than_16_dwords() {
    let mut rng = Rng::new(25);
    for (op, words) in Op::ALL.into_iter().cycle().zip([0, 1, 15, 17, 32].repeat(140)) {
        let mut before = case_for(&mut rng, op);
        before.desc.resize(words, 0);
        let mut after = before.clone();
        let answer = after.run();
        assert_eq!((answer.code, &after), (1, &before));
        check_refusal(&before, &after, &answer);
    }
}

#[test]
fn every_number_of_packing() {
    let mut rng = Rng::new(22);
    let (mut packed, mut unpacked) = (0, 0);
    let mut kinds = [[0u32; 2]; 8];
    for _ in 0..20000 {
        let asked = fields(&mut rng);
        if let Ok((header, word)) = pack(&asked) {
            packed += 1;
            kinds[asked.kind as usize][0] += 1;
            let mut whole = well_formed_of(&mut rng, asked.num_dwords as usize + 1);
            (whole[0], whole[1]) = (header, word);
            assert_eq!(unpack(&whole), Ok(asked));
        }
        let dwords = message(&mut rng);
        if let Ok(fields) = unpack(&dwords) {
            unpacked += 1;
            kinds[fields.kind as usize][1] += 1;
            assert_eq!(pack(&fields), Ok((dwords[0], dwords[1])));
        }
    }
    println!("packed {packed}, unpacked {unpacked} of 20000, by type {kinds:?}");
    assert!(TYPES.iter().all(|&kind| kinds[kind as usize].iter().all(|&count| count > 1000)));
    assert!((5000..18000).contains(&packed) && (5000..18000).contains(&unpacked));
}

#[test]
fn every_number_of_css() {
    let mut rng = Rng::new(23);
    let (mut counts, mut truncated) = ([0u32; 22], 0);
    for _ in 0..20000 {
        let blob = css_blob(&mut rng);
        let image = css::locate(&blob);
        counts[image.code as usize] += 1;
        truncated += image.truncated as u32;
        assert_eq!(css::judge(&blob), (image.code, image.truncated));
        assert_eq!(css::version(&blob).err().unwrap_or(0), image.code);
        for part in [image.ucode, image.rsa, image.modulus, image.exponent] {
            assert!(blob.get(part.0..part.1).is_some());
        }
    }
    println!("css: {counts:?}, truncated {truncated}");
    assert!(truncated > 1000 && counts[0] - truncated > 1000);
    assert!([15, 16, 17].iter().all(|&code| counts[code] > 1000));
}

/// How many entries have this name, by cutting the blob into entries; asked only
/// where 14 to 19 have passed, so all entries must be there.
fn named(blob: &[u8], name: &[u8]) -> usize {
    let count = u32::from_le_bytes([blob[4], blob[5], blob[6], blob[7]]) as usize;
    assert!(blob.len() >= blob[10] as usize + 24 * count);
    let has = |entry: &&[u8]| {
        entry[..name.len()] == *name && entry[name.len()..12].iter().all(|&byte| byte == 0)
    };
    blob[blob[10] as usize..].chunks_exact(24).take(count).filter(has).count()
}

/// 20 for none, 22 for more than one, and neither for one.
fn check_named(blob: &[u8], name: &[u8], code: u32) {
    if ![14, 15, 18, 19].contains(&code) {
        let count = named(blob, name);
        assert_eq!((code == 20, code == 22), (count == 0, count > 1), "{count} entries");
    }
}

#[test]
fn every_number_of_cpd() {
    let mut rng = Rng::new(24);
    let (mut seek, mut manifest, mut huc) = ([0u32; 23], [0u32; 23], [0u32; 23]);
    let (mut truncated, mut empty_at_end) = (0, 0);
    for _ in 0..20000 {
        let case = cpd_case(&mut rng);
        let (code, start, end) = cpd::seek(&case.blob, &case.name);
        assert!(case.blob.get(start..end).is_some());
        seek[code as usize] += 1;
        check_named(&case.blob, &case.name, code);
        empty_at_end += (code == 0 && start == case.blob.len()) as u32;
        manifest[cpd::manifest_version(&case.blob).err().unwrap_or(0) as usize] += 1;
        let image = cpd::huc_locate(&case.blob);
        huc[image.code as usize] += 1;
        truncated += image.truncated as u32;
        assert_eq!(cpd::huc_version(&case.blob).err().unwrap_or(0), image.code);
        for part in [image.ucode, image.rsa, image.modulus, image.exponent] {
            assert!(case.blob.get(part.0..part.1).is_some());
        }
    }
    println!("seek: {seek:?}, empty at the end {empty_at_end}");
    println!("manifest: {manifest:?}");
    println!("huc_fw: {huc:?}, truncated {truncated}");
    assert!([0, 14, 15, 18, 19, 20, 21, 22].iter().all(|&code| seek[code] > 200));
    assert!([0, 15, 18, 19, 20, 21, 22].iter().all(|&code| manifest[code] > 200));
    assert!([0, 15, 16, 17, 18, 19, 20, 21, 22].iter().all(|&code| huc[code] > 200));
    assert!(truncated > 200 && empty_at_end > 200);
}

/// The numbers of a sweep's directories: of the name sought, which is one of
/// these, and of the manifest and the image where it is theirs.
fn answers_of(sweep: fn(&mut Rng) -> Vec<CpdCase>, seed: u64, seek: &[u32]) {
    let cases = sweep(&mut Rng::new(seed));
    assert!(cases.len() >= 12);
    for CpdCase { blob, name } in cases {
        let (code, _, _) = cpd::seek(&blob, &name);
        assert!(seek.contains(&code), "{}: {code}", name.escape_ascii());
        check_named(&blob, &name, code);
        let inner = match &name[..] {
            cpd::MANIFEST => cpd::manifest_version(&blob).err(),
            cpd::HUC_FW => cpd::huc_version(&blob).err(),
            _ => continue,
        };
        assert!(code == 0 || inner == Some(code), "{}: {inner:?}", name.escape_ascii());
        assert!(code != 0 || ![Some(20), Some(22)].contains(&inner));
    }
}

#[test]
fn sweeps_of_names() {
    for seed in 0..20 {
        answers_of(every_repeat, seed, &[22]);
        answers_of(every_repeat_cut, seed, &[15, 19, 22]);
        answers_of(every_repeated_length, seed, &[22]);
        answers_of(every_near_name, seed, &[0, 20]);
        answers_of(every_uncounted_name, seed, &[0]);
        answers_of(every_misplaced_name, seed, &[0]);
        answers_of(every_name_bit, seed, &[0, 20]);
    }
}
