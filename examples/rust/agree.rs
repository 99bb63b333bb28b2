//! Three cores agree on one value, as in examples/agree.c: core 2 fails right after its first store,
//! core 3 wakes late, and the others decide what core 2 proposed. Then a few refusals.
mod sepalsail;

use sepalsail::{run, Answer, Place, Session, Sheet};

/// A core: which party it is, at which turn it wakes and at which it fails, and whether it is over.
struct Core {
    party: u32,
    wakes: u32,
    fails: Option<u32>,
    over: bool,
}

impl Core {
    /// One turn: it sleeps, fails, or takes one step. Gives the schedule's byte for what it did.
    fn take_turn(&mut self, turn: u32, session: &mut Session) -> Answer<Option<u8>> {
        if self.over || turn < self.wakes {
            return Ok(None);
        }
        if self.fails == Some(turn) {
            self.over = true;
            println!(
                "turn {turn:2}  core {} FAILS: {:?}",
                self.party,
                session.stop(self.party)?
            );
            return Ok(Some(128 + self.party as u8));
        }
        let place = session.step(self.party)?;
        self.over = place == Place::Decide;
        println!("turn {turn:2}  core {} {place:?}", self.party);
        Ok(Some(self.party as u8))
    }
}

fn main() -> Answer<()> {
    let proposals = [500, 600, 700];
    let sheet = Sheet::build(1, 5, 3)?;
    let mut session = Session::open(&sheet, &proposals)?;
    let mut cores =
        [(1, 1, None), (2, 1, Some(3)), (3, 7, None)].map(|(party, wakes, fails)| Core {
            party,
            wakes,
            fails,
            over: false,
        });

    let mut schedule = Vec::new();
    for turn in 1.. {
        for core in &mut cores {
            schedule.extend(core.take_turn(turn, &mut session)?);
        }
        if session.live()? == 0 {
            break;
        }
    }

    // the same turns as one run come to the same
    let record = run(&sheet, &proposals, &schedule)?;
    for party in 1..=sheet.parties() {
        assert_eq!(record.party(party), session.party(party));
        if let Some(standing) = session.party(party) {
            println!(
                "core {party} {:?} {:?} after {} steps",
                standing.status, standing.decision, standing.steps
            );
        }
    }

    println!(
        "a sheet of four parties: {:?}",
        Sheet::build(1, 64, 4).err()
    );
    println!(
        "a sheet without its last byte: {:?}",
        Sheet::accept(&sheet.bytes()[..sheet.bytes().len() - 1]).err()
    );
    println!(
        "a schedule with a byte that is none: {:?}",
        run(&sheet, &proposals, &[1, 2, 3, 4]).err()
    );
    println!(
        "a proposal too many: {:?}",
        Session::open(&sheet, &[0; 4]).err()
    );
    println!("a step of party 4: {:?}", session.step(4));
    Ok(())
}
