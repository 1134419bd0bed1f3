//! Snapshots of each kind, and changes to them.
use oracle::field::put;

#[derive(Clone, Copy, PartialEq)]
pub enum Shape {
    /// IPv4 origins, a /24 each.
    Origins4,
    /// IPv6 origins, a /48 each.
    Origins6,
    /// Router keys with 91 bytes of key info.
    Keys,
    /// ASPAs with one provider, two, and so on to this many, in turn.
    Aspas(u32),
    /// Four fifths origins of both families, some router keys, the rest ASPAs of one to six providers.
    Mixed,
    /// IPv4 origins, of which one in 65 comes at each step and stays: nothing cancels when deltas are merged.
    Growing,
    /// The same in runs of 50 neighbours, as when a holder of addresses publishes all of theirs at once.
    Together,
}

/// The inputs of one measurement: a snapshot for each step.
#[derive(Clone, Copy)]
pub struct Data {
    pub shape: Shape,
    /// How many items a snapshot has; of `Growing` and `Together` the last.
    pub items: u32,
    /// One item in so many is touched at each step.
    pub every: u32,
}

impl Data {
    /// So many items, of which about one in 500 changes at each step.
    pub fn new(shape: Shape, items: u32) -> Self {
        Data { shape, items, every: 1001 }
    }

    /// The same with about this many changes at each step.
    pub fn changing(self, changes: u32) -> Self {
        Data { every: 2 * self.items / changes + 1, ..self }
    }

    /// The snapshot at a step. Between two steps origins and router keys go and come, ASPAs get one provider
    /// more and lose it.
    pub fn snapshot(self, step: u32) -> Vec<u8> {
        let Data { shape, items: n, every } = self;
        let mut out = Vec::new();
        let touched = |i: &u32| i % every == step * 7 % every;
        let present = |n: u32| (0..).filter(move |i| !touched(i)).take(n as usize);
        match shape {
            Shape::Origins4 => present(n).for_each(|i| origin4(&mut out, i)),
            Shape::Origins6 => present(n).for_each(|i| origin6(&mut out, i)),
            Shape::Keys => present(n).for_each(|i| key(&mut out, i, n)),
            Shape::Aspas(most) => {
                (0..n).for_each(|i| aspa(&mut out, i, 1 + i % most + u32::from(touched(&i))))
            }
            Shape::Mixed => {
                present(n / 5 * 2).for_each(|i| origin4(&mut out, i));
                present(n / 5 * 2).for_each(|i| origin6(&mut out, i));
                present(n / 25).for_each(|i| key(&mut out, i, n / 25));
                (0..n / 25 * 4).for_each(|i| aspa(&mut out, i, 1 + i % 6 + u32::from(touched(&i))));
            }
            Shape::Growing => (0..n).filter(|i| i % 65 <= step).for_each(|i| origin4(&mut out, i)),
            Shape::Together => (0..n).filter(|i| i / 50 % 65 <= step).for_each(|i| origin4(&mut out, i)),
        }
        out
    }

    /// The difference between the snapshots at this step and at the next.
    pub fn delta(self, step: u32) -> Vec<u8> {
        let (old, new) = (self.snapshot(step), self.snapshot(step + 1));
        let mut out = vec![0; old.len() + new.len()];
        let answer = taplevung::raw::construct(&old, &new, taplevung::Serial(step), &mut out);
        assert_eq!(answer.kind, 1);
        out.truncate(answer.length as usize);
        out
    }
}

// Items by number, ascending. No snapshot has room for 2^22 items, so none of these numbers overflows.

fn origin4(out: &mut Vec<u8>, i: u32) {
    let mut address = [0; 16];
    address[..4].copy_from_slice(&(i << 8).to_be_bytes());
    put(out, 1, &[&[4], &address, &[24, 24], &64_496u32.to_be_bytes()]);
}

fn origin6(out: &mut Vec<u8>, i: u32) {
    let mut address = [0; 16];
    address[..2].copy_from_slice(&[0x20, 0x01]);
    address[2..6].copy_from_slice(&i.to_be_bytes());
    put(out, 1, &[&[6], &address, &[48, 64], &(64_496 + i % 99).to_be_bytes()]);
}

/// One of `n` router keys, of which half as many again may be present: an identifier of 20 bytes, ascending but
/// in no other way regular, and 91 bytes of key info.
fn key(out: &mut Vec<u8>, i: u32, n: u32) {
    let noise = u64::from(i).wrapping_mul(0x9E37_79B9_7F4A_7C15).to_be_bytes();
    let identifier = [&(i * (u32::MAX / (2 * n + 2))).to_be_bytes()[..], &noise, &noise].concat();
    put(out, 2, &[&identifier, &64_496u32.to_be_bytes(), &[noise[0]; 91]]);
}

/// No ASPA has its customer among its providers.
fn aspa(out: &mut Vec<u8>, i: u32, providers: u32) {
    let providers: Vec<u8> = (1..=providers).flat_map(|p| (i + 7 * p).to_be_bytes()).collect();
    put(out, 3, &[&i.to_be_bytes(), &providers]);
}
