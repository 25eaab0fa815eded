//! What README.md says to do about conditions 3 to 6, which hold a port shut, is done in random networks, by the compiled calls of layer 3:
//! it leads to a later condition (a cut for a sent limit may lead to 3), and followed row by row the port forwards in the end.

use bench_tests::count::Met;
use bench_tests::model::{Call, Reply};
use bench_tests::network_event::name;
use bench_tests::network_random::map_of;
use bench_tests::network_run::{across, Run};
use bench_tests::random::Random;
use bench_tests::verdict::{name_of, Verdict, FORWARDS, HELD_TOO_GREAT, NOTHING_HELD, OWN_END_DOWN, SENT_TOO_LOW};
use bench_tests::verdict_lists::{all_named, in_list, LISTS};
use reference::distances::NONE;
use reference::forwarding::PathEnd;
use reference::network::MOST_IN_FLIGHT;

/// What README.md's table has steps for, where the bridge stays on its view; in the order in which it is named.
const ADVISED: [u8; 4] = [OWN_END_DOWN, NOTHING_HELD, HELD_TOO_GREAT, SENT_TOO_LOW];

/// Somebody who wants a bridge to forward for a destination and goes by what is named, in a network of their own.
struct Planner {
    run: Run,
    bridge: usize,
    dest: usize,
    met: Met,
}

impl Planner {
    fn named(&mut self) -> Result<Verdict, String> {
        self.run.verdict(self.bridge, self.dest)
    }

    fn path(&mut self) -> Result<PathEnd, String> {
        match self.run.ask(Call::Path(self.bridge, self.dest))? {
            Ok(Reply::Path(path)) => Ok(path),
            other => Err(format!("a path replied {other:?}")),
        }
    }

    fn view_of(&self, bridge: usize) -> usize {
        self.run.network().bridges[bridge].view
    }

    fn is_up(&self, bridge: usize, link: usize) -> bool {
        self.run.map().end_at(bridge, link).is_some_and(|end| self.run.network().is_up(end))
    }

    fn neighbour(&self, link: usize) -> usize {
        across(self.run.map(), link, self.bridge)
    }

    /// A call that has to be accepted.
    fn make(&mut self, call: Call) -> Result<(), String> {
        self.run.ask(call)?.map(|_| ()).map_err(|number| format!("{call:?}: refused with {number}"))
    }

    /// What is named now, after something was done about what was named before. It has to be right.
    fn next(&mut self, before: Verdict, done: &str, is_right: impl FnOnce(Verdict) -> bool) -> Result<Verdict, String> {
        let next = self.named()?;
        if is_right(next) {
            Ok(next)
        } else {
            Err(format!("of {} for {}: {next:?} after {before:?}, {done}", self.bridge, self.dest))
        }
    }

    /// An update of a neighbour, or a cut or restore of its end: what is named of this bridge stays.
    fn make_across(&mut self, call: Call) -> Result<(), String> {
        let before = self.named()?;
        self.make(call)?;
        self.met.note(format!("{} across", name(call)));
        self.next(before, &format!("{call:?}"), |next| next == before).map(|_| ())
    }

    fn restore_far_end(&mut self, link: usize) -> Result<(), String> {
        let neighbour = self.neighbour(link);
        if self.is_up(neighbour, link) {
            return Ok(());
        }
        self.make_across(Call::Restore(neighbour, link))
    }

    /// The neighbour is on the same view, and can send over the link.
    fn prepare(&mut self, link: usize) -> Result<(), String> {
        let (neighbour, view) = (self.neighbour(link), self.view_of(self.bridge));
        if self.view_of(neighbour) != view {
            self.make_across(Call::Update(neighbour, view))?;
        }
        self.restore_far_end(link)
    }

    /// A bridge sends over the link, and that very message is delivered.
    fn tell(&mut self, from: usize, link: usize) -> Result<(), String> {
        if self.run.network().flight.len() == MOST_IN_FLIGHT {
            self.make(Call::Lose(0))?;
            self.met.note("lose before a send");
        }
        self.make(Call::Send(from, link))?;
        self.make(Call::Deliver(self.run.network().flight.len() - 1))
    }

    /// A message that the neighbour sends from another view does not put right what is held. It is sent in a copy of the network.
    fn tell_too_early(&mut self, named: Verdict, link: usize) -> Result<(), String> {
        self.met.note("told too early");
        let mut early = Planner { run: self.run.copy(), met: Met::default(), ..*self };
        early.restore_far_end(link)?;
        early.tell(self.neighbour(link), link)?;
        early.next(named, "told too early", |next| next == named).map(|_| ())
    }

    /// README.md's row for what is named.
    fn steps(&mut self, case: u8, link: usize) -> Result<(), String> {
        if case == OWN_END_DOWN {
            self.make(Call::Restore(self.bridge, link))?;
            return self.restore_far_end(link);
        }
        if case != SENT_TOO_LOW && self.view_of(self.neighbour(link)) != self.view_of(self.bridge) {
            self.tell_too_early((case, Some(link)), link)?;
        }
        self.prepare(link)?;
        if case == SENT_TOO_LOW {
            self.tell(self.bridge, link)?;
        }
        self.tell(self.neighbour(link), link)
    }

    /// Then it forwards, or a later condition is named: never the same again, and of sent limits that of a higher link.
    fn follow(&mut self, named: Verdict) -> Result<Verdict, String> {
        let (case, Some(link)) = named else { return Err(format!("{named:?} has no link")) };
        self.steps(case, link)?;
        let next =
            self.next(named, "followed", |next| next.0 == FORWARDS || next.0 > case || (case == SENT_TOO_LOW && next > named))?;
        let row = name_of(case);
        self.met.note_times(format!("{row}, forwards"), (next.0 == FORWARDS).into());
        self.met.note(row);
        Ok(next)
    }

    /// What is named, row after row, until it forwards.
    fn rows(&mut self) -> Result<Vec<Verdict>, String> {
        let (mut rows, mut named) = (Vec::new(), self.named()?);
        while named.0 != FORWARDS {
            rows.push(named);
            named = self.follow(named)?;
        }
        Ok(rows)
    }

    /// At most one row is for its own end, one for what is held, and one for the sent limit of each of its links. Its frames then cross the
    /// chosen link, unless sent limits alone were named: there the far end of the chosen link has no part.
    fn open(&mut self) -> Result<(), String> {
        let rows = self.rows()?;
        self.met.note(if rows.len() > 1 { "several rows" } else { "one row" });
        let is_short = rows.len() <= 2 + self.run.network().ends[self.bridge].len();
        let crosses = self.path()?.hops > 0;
        if is_short && (crosses || rows.iter().all(|row| row.0 == SENT_TOO_LOW)) {
            Ok(())
        } else {
            Err(format!("of {} for {}: {rows:?}, and frames cross: {crosses}", self.bridge, self.dest))
        }
    }

    fn cut_far_end(&mut self, link: usize) -> Result<(), String> {
        let neighbour = self.neighbour(link);
        if !self.is_up(neighbour, link) {
            return Ok(());
        }
        self.make_across(Call::Cut(neighbour, link))
    }

    /// Restores every link but this one at both ends; the ends of those links.
    fn restore_others(&mut self, link: usize) -> Result<Vec<(usize, usize)>, String> {
        let others = self.run.network().ends.concat().into_iter().filter(|end| end.link != link);
        let others: Vec<(usize, usize)> = others.map(|end| (self.run.map().bridge_at(end), end.link)).collect();
        for &(bridge, link) in &others {
            if !self.is_up(bridge, link) {
                self.make(Call::Restore(bridge, link))?;
            }
        }
        Ok(others)
    }

    /// The chosen link stays down at this bridge's end, and its far end is cut too. If there is a view without it in which the bridge has a
    /// path, every other link is restored, all bridges go to that view, and two rounds follow over those links. Then the bridge forwards, and its frames arrive.
    fn leave(&mut self) -> Result<(), String> {
        let named = self.named()?;
        let (OWN_END_DOWN, Some(link)) = named else { return Err(format!("{named:?} is no end that is down")) };
        let map = self.run.map().clone();
        let serves = |&view: &usize| map.cost(view, link) == 0 && map.distance(view, self.dest, self.bridge) != NONE;
        let Some(view) = (0..map.view_count()).find(serves) else { return Ok(()) };
        self.cut_far_end(link)?;
        let others = self.restore_others(link)?;
        (0..map.bridge_count()).try_for_each(|bridge| self.make(Call::Update(bridge, view)))?;
        others.repeat(2).into_iter().try_for_each(|(bridge, link)| self.tell(bridge, link))?;
        let arrives = self.path()?.last == self.dest;
        self.met.note("left");
        self.next(named, "left", |next| next.0 == FORWARDS && arrives).map(|_| ())
    }

    /// The far end of the link named stays down, and this bridge's own end is cut too. That sent limit is not named again: where the link is
    /// the chosen one, that it is down; elsewhere a higher link is, or the port forwards.
    fn cut(&mut self) -> Result<(), String> {
        let named = self.named()?;
        let (SENT_TOO_LOW, Some(link)) = named else { return Err(format!("{named:?} is no sent limit")) };
        self.cut_far_end(link)?;
        let is_chosen = self.run.network().chosen(self.bridge, self.dest).is_some_and(|end| end.link == link);
        self.make(Call::Cut(self.bridge, link))?;
        let next = self.next(named, "cut", |next| match next {
            (OWN_END_DOWN, at) => is_chosen && at == Some(link),
            (SENT_TOO_LOW, at) => !is_chosen && at > Some(link),
            (case, _) => !is_chosen && case == FORWARDS,
        })?;
        self.met.note(format!("cut, then {}", name_of(next.0)));
        Ok(())
    }
}

type Doing = fn(&mut Planner) -> Result<(), String>;

/// What is met where this is done about every bridge and destination of which such a case is named, in networks of a list. In some of them
/// as many messages are in flight as may be.
fn done_in_list(random: &mut Random, cases: &[u8], doing: Doing) -> Result<Met, String> {
    let mut met = Met::default();
    for mut run in in_list(random)? {
        if random.one_in(8) {
            run.flood(random)?;
        }
        for (bridge, dest, _) in all_named(&run).filter(|(.., named)| cases.contains(&named.0)) {
            let mut planner = Planner { run: run.copy(), bridge, dest, met: Met::default() };
            doing(&mut planner)?;
            met.add(&planner.met);
        }
    }
    Ok(met)
}

fn done_in_lists(first: u64, cases: &[u8], doing: Doing) -> Met {
    let mut met = Met::default();
    for seed in first..first + LISTS {
        met.add(&done_in_list(&mut Random::new(seed), cases, doing).unwrap_or_else(|wrong| panic!("seed {seed}: {wrong}")));
    }
    met
}

/// Each row of README.md's table puts right what it is about, and one after the other they open the port.
#[test]
fn what_to_do_opens_the_port() {
    let met = done_in_lists(240_000_000, &ADVISED, Planner::open);
    let rows = ADVISED.map(name_of).into_iter().flat_map(|row| [row.into(), format!("{row}, forwards")]);
    let others = ["told too early", "update across", "restore across", "lose before a send", "one row", "several rows"];
    met.only("followed", &rows.chain(others.map(String::from)).collect::<Vec<_>>(), 400);
}

#[test]
fn a_view_without_the_link_opens_the_port() {
    let met = done_in_lists(245_000_000, &[OWN_END_DOWN], Planner::leave);
    met.only("left", &["left", "cut across", "lose before a send"], 40);
}

#[test]
fn a_cut_leads_away_from_a_sent_limit() {
    let met = done_in_lists(250_000_000, &[SENT_TOO_LOW], Planner::cut);
    let next = [FORWARDS, OWN_END_DOWN, SENT_TOO_LOW].map(|case| format!("cut, then {}", name_of(case)));
    met.only("cut", &[&next[..], &["cut across".into()]].concat(), 25);
}

/// As many rows as there can be. Bridge 1 has link 1 to bridge 2 and link 2 to bridge 3, and each of these a link to bridge 0. It goes by
/// link 1 in view 0, by link 2 in view 1, and by link 1 again in view 2, where its distance of 6 is above what it offered over either.
#[test]
fn as_many_rows_as_there_can_be() {
    let map = map_of(4, &[[0, 2], [2, 1], [1, 3], [3, 0]], &[vec![1, 1, 1, 9], vec![9, 1, 1, 1], vec![5, 1, 1, 9]]);
    let mut run = Run::fresh(&mut Random::new(7), &map).expect("a fresh network");
    run.make(Call::Update(1, 1));
    run.make(Call::Update(2, 1));
    run.tell(2, 1);
    run.make(Call::Update(1, 2));
    run.make(Call::Cut(1, 1));
    let rows = [(OWN_END_DOWN, Some(1)), (HELD_TOO_GREAT, Some(1)), (SENT_TOO_LOW, Some(1)), (SENT_TOO_LOW, Some(2))];
    assert_eq!(Planner { run, bridge: 1, dest: 0, met: Met::default() }.rows().as_deref(), Ok(&rows[..]));
}
