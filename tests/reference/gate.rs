//! The gate: one multiplication by three parties.

use crate::record::Shares;

/// The words z_0, z_1, z_2 that the parties send.
/// 01, with the masks of 02, P5: z_i = x_i y_i + x_i y_(i+1) + x_(i+1) y_i + t_(i+1) - t_i.
pub fn words(modulus: u64, x: Shares, y: Shares, t: Shares) -> Shares {
    let m = u128::from(modulus);
    let [x, y, t] = [x, y, t].map(|shares| shares.map(u128::from));
    [(0, 1), (1, 2), (2, 0)].map(|(i, next)| {
        let products = x[i] * y[i] + x[i] * y[next] + x[next] * y[i];
        ((products + t[next] + (m - t[i])) % m) as u64
    })
}

/// The gates of one order: takes items in turn and keeps the words sent.
pub struct Gates<'a> {
    masks: [&'a [u64]; 3],
    moduli: &'a [u64],
    /// The words of each gate so far, one for each channel.
    pub sent: Vec<Shares>,
}

impl<'a> Gates<'a> {
    /// `masks` begin at the mask position; `moduli` are those of the gates.
    pub fn new(masks: [&'a [u64]; 3], moduli: &'a [u64]) -> Gates<'a> {
        Gates {
            masks,
            moduli,
            sent: Vec::new(),
        }
    }

    /// One gate. 01: "takes the next item t0, t1, t2 of each strand", and
    /// "z0, z1, z2 are the new sub-shares".
    pub fn multiply(&mut self, modulus: u64, x: Shares, y: Shares) -> Shares {
        let turn = self.sent.len();
        assert_eq!(modulus, self.moduli[turn], "gate {turn} in another ring");
        let items = self.masks.map(|tape| tape[turn]);
        let z = words(modulus, x, y, items);
        self.sent.push(z);
        z
    }
}
