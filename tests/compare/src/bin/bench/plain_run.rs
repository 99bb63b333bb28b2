//! The plain run: the plain check with its decoded rows, indexed arrays, a pass that validates the
//! schedule and a pass that obeys it.

use crate::plain_check::{read, Row, Rows};

/// The entry of a party.
#[derive(Clone, Copy)]
struct Party {
    status: u8,
    place: u8,
    round: u8,
    k: u8,
    candidate: u8,
    steps: u16,
    decision: u32,
}

/// A session, indexed from 0 by party, round and unit.
struct State {
    rows: Rows,
    proposals: [u32; 16],
    marks: [u8; 1024],
    published: [[u8; 16]; 17],
    parties: [Party; 16],
    n: u8,
}

impl State {
    fn open(rows: Rows, proposals: &[u8], n: u8) -> State {
        let mut state = State {
            rows,
            proposals: [0; 16],
            marks: [0; 1024],
            published: [[0; 16]; 17],
            parties: std::array::from_fn(|index| Party {
                status: 0,
                place: 0,
                round: 0,
                k: 0,
                candidate: index as u8 + 1,
                steps: 0,
                decision: 0,
            }),
            n,
        };
        for (to, from) in state.proposals.iter_mut().zip(proposals.as_chunks::<4>().0) {
            *to = u32::from_be_bytes(*from);
        }
        state
    }

    #[inline]
    fn row(&self, round: u8, i: u8) -> &Row {
        let round = usize::from(round);
        &self.rows[round * (round - 1) / 2 - 2 + usize::from(i)]
    }

    #[inline]
    fn mark(&self, unit: u32) -> u8 {
        self.marks[unit as usize]
    }

    /// Stores the mark in the units of a row's set.
    #[inline]
    fn write(&mut self, round: u8, i: u8, mark: u8) {
        let row = *self.row(round, i);
        let mut left = row.mask;
        while left != 0 {
            self.marks[(row.start + left.trailing_zeros()) as usize] = mark;
            left &= left - 1;
        }
    }

    /// One step of a party that is idle or runs.
    #[inline]
    fn act(&mut self, i: u8) {
        let at = usize::from(i) - 1;
        let mut p = self.parties[at];
        let (r, k) = (p.round, p.k);
        match p.place {
            0 => {
                p.status = 1;
                if self.n == 1 {
                    p.place = 7;
                } else {
                    enter(&mut p, i, i.max(2));
                }
            }
            1 => {
                self.published[usize::from(r)][at] = p.candidate;
                p.place = 2;
            }
            2 if i == r => {
                self.write(r, i, 2);
                (p.place, p.k) = (4, 1);
            }
            2 => {
                self.write(r, i, 1);
                p.place = 3;
            }
            3 if self.mark(self.row(r, r).own) == 0 => lowers_win(&mut p, i, self.n),
            3 => (p.place, p.k) = (4, 1),
            4 if self.mark(self.row(r, k).own) == 0 => next_k(&mut p, i, self.n),
            4 => p.place = 5,
            5 if self.mark(self.row(r, k).pair) == 2 => lowers_win(&mut p, i, self.n),
            5 => next_k(&mut p, i, self.n),
            6 => {
                p.candidate = self.published[usize::from(r)][usize::from(k) - 1];
                leave(&mut p, i, self.n);
            }
            _ => {
                p.decision = self.proposals[usize::from(p.candidate) - 1];
                (p.status, p.place) = (2, 8);
            }
        }
        p.steps += 1;
        self.parties[at] = p;
    }
}

#[inline]
fn enter(p: &mut Party, i: u8, round: u8) {
    (p.place, p.round, p.k) = (if i == round { 2 } else { 1 }, round, 0);
}

#[inline]
fn leave(p: &mut Party, i: u8, n: u8) {
    if p.round < n {
        enter(p, i, p.round + 1);
    } else {
        (p.place, p.round, p.k) = (7, 0, 0);
    }
}

#[inline]
fn lowers_win(p: &mut Party, i: u8, n: u8) {
    if i == p.round {
        p.place = 6;
    } else {
        leave(p, i, n);
    }
}

#[inline]
fn next_k(p: &mut Party, i: u8, n: u8) {
    if p.k + 1 < p.round {
        (p.place, p.k) = (4, p.k + 1);
    } else {
        p.candidate = p.round;
        leave(p, i, n);
    }
}

/// The run; the answer is packed as the library packs it.
pub fn run(sheet: &[u8], proposals: &[u8], schedule: &[u8], out: &mut [u8]) -> u64 {
    let mut rows = [Row::EMPTY; 135];
    let answer = read::<false>(sheet, &mut rows);
    if answer != 0 {
        return answer;
    }
    let n = sheet[5];
    if proposals.len() != 4 * usize::from(n) {
        return 7;
    }
    let bad = |byte: &u8| (byte & 127).wrapping_sub(1) >= n;
    let limit = schedule.len().min(u32::MAX as usize);
    if let Some(index) = schedule[..limit].iter().position(bad) {
        return 8 | (index as u64) << 32;
    }
    if limit < schedule.len() {
        return 8 | (limit as u64) << 32;
    }
    let length = 4 + 7 * usize::from(n);
    if out.len() < length {
        return 11;
    }
    let mut state = State::open(rows, proposals, n);
    for byte in schedule {
        let i = byte & 127;
        let status = &mut state.parties[usize::from(i) - 1].status;
        if *status < 2 {
            if *byte < 128 {
                state.act(i);
            } else {
                *status = 3;
            }
        }
    }
    out[..2].copy_from_slice(&(length as u16).to_be_bytes());
    out[2..4].copy_from_slice(&[1, n]);
    for (part, party) in out[4..length]
        .as_chunks_mut::<7>()
        .0
        .iter_mut()
        .zip(&state.parties)
    {
        part[0] = party.status;
        part[1..3].copy_from_slice(&party.steps.to_be_bytes());
        part[3..].copy_from_slice(&party.decision.to_be_bytes());
    }
    0
}

/// Checks that the plain run gives the model's answers and outputs, on many inputs.
pub fn verify(inputs: u32) {
    use compare::make::{damage, schedules, sheets};
    use compare::model::layout::host_run;
    use compare::rng::Rng;
    let mut rng = Rng::new(2);
    for _ in 0..inputs {
        let draft = sheets::any_good(&mut rng);
        let n = usize::from(draft.parties);
        let proposals = schedules::proposals(&mut rng, n);
        let length = rng.below(200 * n);
        let schedule = schedules::schedule(&mut rng, n, length);
        let mut bad = schedule.clone();
        bad.push(schedules::bad_byte(&mut rng, n));
        let good = draft.bytes();
        let damaged = damage::any(&mut rng, draft);
        for (sheet, proposals, schedule, length) in [
            (&good, &proposals[..], &schedule, 4 + 7 * n),
            (&good, &proposals[..], &schedule, 3 + 7 * n),
            (&good, &proposals[..], &bad, 0),
            (&good, &proposals[1..], &schedule, 0),
            (&damaged, &proposals[..], &schedule, 0),
        ] {
            let mut by_model = vec![7; length];
            let mut by_run = by_model.clone();
            let model = host_run(sheet, proposals, schedule, &mut by_model);
            assert_eq!(run(sheet, proposals, schedule, &mut by_run), model);
            assert_eq!(by_run, by_model);
        }
    }
}
