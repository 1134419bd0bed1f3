//! Good bytes made bad, in every way that a rule of 01 speaks of; and histories made ill-formed.
use crate::field::{pieces, split_update};
use crate::make::World;
use crate::model::Form;
use crate::rng::Rng;

type Fields = Vec<Vec<u8>>;

/// A way to damage fields. It may find nothing to damage; what it leaves may be good by chance.
type Damage = fn(&mut Rng, Form, &mut Fields);

pub const DAMAGES: &[(&str, Damage)] = &[
    ("a bit", |rng, _, fields| {
        at_any_byte(rng, fields, |rng, b| *b ^= 1 << rng.below(8));
    }),
    ("a byte", |rng, _, fields| {
        at_any_byte(rng, fields, |rng, b| *b = *rng.pick(&[0, 1, 3, 4, 5, 6, 23, 32, 33, 128, 129, 255]));
    }),
    ("cut", |rng, _, fields| {
        let all = fields.concat();
        *fields = vec![all[..rng.below(all.len() + 1)].to_vec()];
    }),
    ("cut in a head", |rng, _, fields| {
        if let Some(field) = some(rng, fields) {
            let (field, kept) = (field.clone(), 1 + rng.below(2));
            let at = fields.iter().position(|f| *f == field).expect("it is one of them");
            fields.truncate(at);
            fields.push(field[..kept].to_vec());
        }
    }),
    ("cut by a byte", |_, _, fields| {
        fields.last_mut().map(Vec::pop);
    }),
    ("a byte dropped", |rng, _, fields| {
        if let Some(field) = some(rng, fields) {
            field.remove(rng.below(field.len()));
        }
    }),
    ("a byte added", |rng, _, fields| {
        if let Some(field) = some(rng, fields) {
            let at = rng.below(field.len() + 1);
            field.insert(at, rng.next() as u8);
        }
    }),
    ("neighbours swapped", |rng, _, fields| {
        if fields.len() > 1 {
            let at = rng.below(fields.len() - 1);
            fields.swap(at, at + 1);
        }
    }),
    ("a field moved", |rng, _, fields| {
        if fields.len() > 1 {
            let field = fields.remove(rng.below(fields.len()));
            fields.insert(rng.below(fields.len() + 1), field);
        }
    }),
    ("a field twice", |rng, _, fields| {
        if !fields.is_empty() {
            let at = rng.below(fields.len());
            fields.insert(at, fields[at].clone());
        }
    }),
    ("a customer twice", |rng, _, fields| {
        // with other providers: the key alone decides
        if let Some(at) = fields.iter().position(|f| matches!(f[0], 0x03 | 0x31 | 0x32)) {
            let mut field = fields[at][..7].to_vec();
            field.extend([0, 0, 0, *rng.pick(&[8, 9])]);
            fix(&mut field);
            fields.insert(at + rng.below(2), field);
        }
    }),
    ("a key under two actions", |rng, form, fields| {
        if form == Form::Delta {
            if let Some(at) = some_index(rng, fields, |f| f[0] & 15 != 3) {
                let mut field = fields[at].clone();
                field[0] ^= 3;
                fields.insert(at + rng.below(2), field);
            }
        }
    }),
    ("a tag", |rng, _, fields| {
        const TAGS: &[u8] = &[
            0, 1, 2, 3, 4, 0x10, 0x11, 0x12, 0x13, 0x21, 0x22, 0x23, 0x30, 0x31, 0x32, 0x33, 0x34, 0x41, 0xFF,
        ];
        if let Some(field) = some(rng, fields) {
            field[0] = *rng.pick(TAGS);
        }
    }),
    ("a length", |rng, _, fields| {
        if let Some(field) = some(rng, fields) {
            let length = u16::from_be_bytes([field[1], field[2]]);
            let other = match rng.below(6) {
                0 => length.wrapping_add(1),
                1 => length.wrapping_sub(1),
                2 => length.wrapping_add(4),
                3 => length.wrapping_sub(4),
                4 => 0,
                _ => 0xFFFF,
            };
            field[1..3].copy_from_slice(&other.to_be_bytes());
        }
    }),
    ("a bound of an origin", |rng, _, fields| {
        if let Some(at) = some_index(rng, fields, |f| matches!(f[0], 0x01 | 0x11 | 0x12)) {
            let body = &mut fields[at][3..];
            let (bound, prefix) = (if body[0] == 4 { 32 } else { 128 }, body[17]);
            match rng.below(7) {
                0 => body[0] = *rng.pick(&[0, 3, 5, 7, 10]),
                1 => (body[17], body[18]) = (bound + 1, bound + 1),
                2 => body[18] = bound + 1,
                3 => body[18] = prefix.wrapping_sub(1),
                // the first bit past the prefix, the last of the family's, the last of all
                4 if prefix < 128 => body[1 + usize::from(prefix / 8)] |= 128 >> (prefix % 8),
                5 => body[usize::from(bound / 8)] |= 1,
                _ => body[16] |= 1,
            }
        }
    }),
    ("a body of another length", |rng, _, fields| {
        if let Some(field) = some(rng, fields) {
            match rng.below(4) {
                0 => drop(field.drain(3..3 + rng.below(field.len() - 2))),
                1 => field.truncate(3 + rng.below(field.len() - 2)),
                2 => field.extend(vec![0; 1 + rng.below(4)]),
                // more key info, or providers, than there may be
                _ if field[0] & 0x0F == 2 && field[0] >> 4 == 0 || field[0] >> 4 == 2 => {
                    field.resize(3 + 24 + 1024 + rng.below(2), 1);
                }
                _ => {
                    field.truncate(7);
                    field.extend((0..4096 + rng.below(2) as u32).flat_map(u32::to_be_bytes));
                }
            }
            fix(field);
        }
    }),
    ("a provider list", |rng, _, fields| {
        if let Some(at) = some_index(rng, fields, |f| f.len() >= 15 && matches!(f[0], 0x03 | 0x31..=0x33)) {
            let field = &mut fields[at];
            let from = field.len() - 8;
            match rng.below(3) {
                0 => field.copy_within(from..from + 4, from + 4),
                1 => field[from..].rotate_left(4),
                _ => field[from..from + 4].fill(0xFF),
            }
        }
    }),
    ("no providers", |rng, _, fields| senseless(rng, fields, |_, _| vec![])),
    ("a customer among its providers", |rng, _, fields| {
        senseless(rng, fields, |customer, list| {
            let mut all: Vec<&[u8]> = list.chunks_exact(4).collect();
            let at = all.partition_point(|p| *p < customer);
            all.insert(at, customer);
            all.concat()
        });
    }),
    ("a count", |rng, _, fields| {
        if let Some(at) = some_index(rng, fields, |f| f[0] == 0x33) {
            let field = &mut fields[at];
            let count = u16::from_be_bytes([field[7], field[8]]);
            let other = match rng.below(5) {
                0 => count.wrapping_add(1),
                1 => count.wrapping_sub(1),
                2 => 0,
                3 => 4097,
                _ => 0xFFFF,
            };
            field[7..9].copy_from_slice(&other.to_be_bytes());
        }
    }),
    ("too long a list in an update", |rng, _, fields| {
        if let Some(at) = some_index(rng, fields, |f| f[0] == 0x33) {
            let field = &mut fields[at];
            let long: Vec<u8> = (0..4096 + rng.below(2) as u32).flat_map(u32::to_be_bytes).collect();
            let (customer, former, new) = split_update(&field[3..]);
            let (former, new) = if rng.one_in(2) { (&long[..], new) } else { (former, &long[..]) };
            let count = ((former.len() / 4) as u16).to_be_bytes();
            *field = [&[0x33, 0, 0], customer, &count, former, new].concat();
            fix(field);
        }
    }),
    ("bytes behind", |rng, _, fields| {
        fields.push((0..1 + rng.below(5)).map(|_| rng.below(4) as u8).collect());
    }),
];

/// Damages good bytes once, or at times twice, and says how.
pub fn damage(rng: &mut Rng, form: Form, bytes: &[u8]) -> (&'static str, Vec<u8>) {
    let mut fields: Fields = pieces(bytes).into_iter().map(<[u8]>::to_vec).collect();
    let (name, first) = rng.pick(DAMAGES);
    first(rng, form, &mut fields);
    if rng.one_in(6) {
        let damaged = fields.concat();
        let (_, second) = rng.pick(&DAMAGES[..3]);
        fields = pieces(&damaged).into_iter().map(<[u8]>::to_vec).collect();
        second(rng, form, &mut fields);
    }
    (name, fields.concat())
}

/// Makes an ASPA of good bytes senseless, if there is one.
pub fn damage_sense(rng: &mut Rng, form: Form, bytes: &[u8]) -> Vec<u8> {
    let mut fields: Fields = pieces(bytes).into_iter().map(<[u8]>::to_vec).collect();
    let name = *rng.pick(&["no providers", "a customer among its providers"]);
    let (_, damage) = DAMAGES.iter().find(|(n, _)| *n == name).expect("one of the damages");
    damage(rng, form, &mut fields);
    fields.concat()
}

fn some_index(rng: &mut Rng, fields: &Fields, which: fn(&Vec<u8>) -> bool) -> Option<usize> {
    let found: Vec<usize> = (0..fields.len()).filter(|&i| which(&fields[i])).collect();
    (!found.is_empty()).then(|| *rng.pick(&found))
}

fn some<'a>(rng: &mut Rng, fields: &'a mut Fields) -> Option<&'a mut Vec<u8>> {
    let at = some_index(rng, fields, |f| f.len() >= 3)?;
    fields.get_mut(at)
}

fn at_any_byte(rng: &mut Rng, fields: &mut Fields, change: fn(&mut Rng, &mut u8)) {
    if let Some(field) = some(rng, fields) {
        let at = rng.below(field.len());
        change(rng, &mut field[at]);
    }
}

/// Puts another list in place of an ASPA's providers, of an update's former or new ones, by the customer and the list.
fn senseless(rng: &mut Rng, fields: &mut Fields, other: fn(&[u8], &[u8]) -> Vec<u8>) {
    let Some(at) = some_index(rng, fields, |f| matches!(f[0], 0x03 | 0x31..=0x33)) else { return };
    let field = &mut fields[at];
    if field[0] != 0x33 {
        let list = other(&field[3..7], &field[7..]);
        field.truncate(7);
        field.extend(list);
    } else {
        let (customer, former, new) = split_update(&field[3..]);
        let (former, new) = match rng.below(2) {
            0 => (other(customer, former), new.to_vec()),
            _ => (former.to_vec(), other(customer, new)),
        };
        let count = ((former.len() / 4) as u16).to_be_bytes();
        *field = [&[0x33, 0, 0], customer, &count, &former, &new].concat();
    }
    fix(field);
}

/// Writes the length that the body has.
fn fix(field: &mut [u8]) {
    let length = (field.len() - 3) as u16;
    field[1..3].copy_from_slice(&length.to_be_bytes());
}

/// Makes a history ill-formed, in each way that refusal 7 names, and says how. Stores over their limits
/// are not among these, for they are large.
pub fn ill_form(rng: &mut Rng, world: &mut World) -> &'static str {
    let state = &mut world.state;
    let held: usize = state.held().iter().sum::<u32>() as usize;
    match rng.below(12) {
        0 => {
            state.keep = 0;
            "keep 0"
        }
        1 => {
            state.keep = *rng.pick(&[65, 66, 128, 256 + 3, u32::MAX]);
            "keep above 64"
        }
        2 => {
            state.n = state.keep + 1;
            "n above keep"
        }
        3 if state.n > 0 => {
            state.n = u32::MAX - rng.below(3) as u32;
            "n far above keep"
        }
        3 | 4 => {
            // F is 0, or near the start serial
            let newest = state.start.wrapping_add(1 + rng.below(3) as u32);
            (state.n, state.newest) = (0, if state.start != 0 && rng.one_in(2) { 0 } else { newest });
            "n = 0 with another serial"
        }
        5 => {
            let newest = if state.start == 0 { 7 } else { 0 };
            *state = crate::call::State { active: 0, n: 0, snapshot: 0, newest, ..*state };
            "inactive with another serial"
        }
        6 => {
            (state.active, state.newest, state.snapshot) = (0, state.start, 0);
            (state.keep, state.n) = (state.keep.max(1), state.n.max(1));
            "inactive with deltas"
        }
        7 => {
            (state.active, state.newest, state.n) = (0, state.start, 0);
            state.snapshot = state.snapshot.max(1);
            "inactive with a snapshot"
        }
        8 => {
            world.snapshots.truncate(state.snapshot as usize);
            state.snapshot = match world.snapshots.pop() {
                Some(_) => state.snapshot,
                None => 1,
            };
            "snapshot past its store"
        }
        9 => {
            world.deltas.truncate(held);
            if world.deltas.pop().is_none() || rng.one_in(2) {
                state.n = state.n.max(1);
                state.active = 1;
                // one delta whose length, or all whose sum, passes 2^32
                let at = rng.below(state.n as usize);
                state.deltas[at] = u32::MAX - rng.below(2) as u32;
            }
            "deltas past their store"
        }
        10 => {
            let (_, bad) = damage(rng, Form::Snapshot, &world.snapshots[..state.snapshot as usize]);
            let rest = world.snapshots.split_off(state.snapshot as usize);
            state.snapshot = bad.len() as u32;
            world.snapshots = [bad, rest].concat();
            "a bad snapshot"
        }
        _ => {
            if state.n > 0 {
                let at = rng.below(state.n as usize);
                let from = state.deltas[..at].iter().sum::<u32>() as usize;
                let to = from + state.deltas[at] as usize;
                let (_, bad) = damage(rng, Form::Delta, &world.deltas[from..to]);
                state.deltas[at] = bad.len() as u32;
                world.deltas.splice(from..to, bad);
            }
            "a bad delta"
        }
    }
}
