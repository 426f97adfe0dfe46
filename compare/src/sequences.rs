//! The visit-sequences.

use crate::grammar::{Before, Rule};
use crate::relations::bits;
use crate::sets::Order;

/// A rule's words in the plan: the length of its sequence, the actions, zeros.
pub type Sequence = [u16; 112];

/// A byte of ones for each byte that is not 0.
fn occupied(bytes: u64) -> u64 {
    const LOW: u64 = 0x7f7f_7f7f_7f7f_7f7f;
    (((bytes & LOW) + LOW | bytes) & !LOW) / 0x80 * 0xff
}

/// What the sequence of one rule is made with. It is made once for all rules: at the end of one nobody waits.
pub struct Sequencer {
    /// What has to be available before an occurrence is computed.
    needs: Before,
    /// The computes that wait for an occurrence. Each waits for one of those that it lacks, and looks again when that one comes.
    waiting: Before,
}

impl Sequencer {
    pub fn new() -> Self {
        Sequencer { needs: [0; 64], waiting: [0; 64] }
    }

    /// A compute is ready, or waits: it if it is ready.
    fn look(&mut self, o: usize, available: u64) -> u64 {
        let lacks = self.needs[o] & !available;
        if lacks == 0 {
            return 1 << o;
        }
        // The left side comes by a leave, after all else, and children come in rising order: the one that comes last is likely this.
        let last = (71 - lacks.rotate_right(8).leading_zeros() as usize) % 64;
        self.waiting[last] |= 1 << o;
        0
    }

    /// Those who waited for an occurrence look again: those that are ready.
    fn wake(&mut self, o: usize, available: u64) -> u64 {
        bits(std::mem::take(&mut self.waiting[o])).fold(0, |ready, woken| ready | self.look(woken, available))
    }

    /// Writes a rule's sequence. Not inlined, so that its sets stay in registers.
    #[inline(never)]
    pub fn sequence(&mut self, rule: &Rule, arguments: &Before, orders: &[Order; 32], out: &mut Sequence) {
        let left = &orders[rule.symbols[0] as usize];
        // The visits left, as 8i + (r - 1); and the inherited attributes of each child's next one.
        let (mut visits, mut wanted) = (0u64, 0u64);
        let mut available = left.inherited & 0xff;
        for (i, x) in rule.places().skip(1) {
            let child = &orders[x];
            visits |= ((1 << child.visits) - 1) << (8 * i);
            wanted |= (child.inherited & 0xff) << (8 * i);
            available |= child.given << (8 * i);
        }
        let mut ready = 0;
        for o in bits(rule.defining) {
            let (i, a) = (o / 8, o % 8);
            self.needs[o] = arguments[o] | (orders[rule.symbols[i] as usize].before >> (8 * a) & 0xff) << (8 * i);
            ready |= self.look(o, available);
        }
        let (mut length, mut leave) = (0, 0);
        loop {
            while ready != 0 {
                let o = ready.trailing_zeros() as usize;
                ready &= ready - 1;
                available |= 1 << o;
                length += 1;
                out[length] = o as u16;
                ready |= self.wake(o, available);
            }
            // A child's next visit is its lowest that is left.
            let next = visits & !(visits << 1) & !occupied(wanted & !available);
            length += 1;
            let made = if next != 0 {
                let visit = next.trailing_zeros() as usize;
                let (i, n) = (visit / 8, visit % 8);
                let child = &orders[rule.symbols[i] as usize];
                visits &= !(1 << visit);
                wanted = wanted & !(0xff << (8 * i)) | (child.inherited >> (8 * n + 8) & 0xff) << (8 * i);
                out[length] = 64 + visit as u16;
                (child.synthesized >> (8 * n) & 0xff) << (8 * i)
            } else {
                let last = leave + 1 == left.visits;
                let follows = if last { rule.defining } else { left.synthesized >> (8 * leave) & 0xff };
                assert!(follows & !available == 0 && !(last && visits != 0), "an action is ready until the sequence is complete");
                out[length] = 128 + leave as u16;
                leave += 1;
                if last {
                    out[0] = length as u16;
                    out[length + 1..].fill(0);
                    return;
                }
                left.inherited >> (8 * leave) & 0xff
            };
            available |= made;
            for o in bits(made) {
                ready |= self.wake(o, available);
            }
        }
    }
}
