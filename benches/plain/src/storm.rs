//! Storms: clients in threads beside each other, over the nodes' workers, and nodes that fail.
use crate::book::{MAX_STEPS, MAX_VERSIONS, Options};
use crate::calls;
use crate::cluster::{Cluster, Direct, Mailboxes, Session};
use crate::contexts::MAX_COUNTER;
use crate::faults::Fault;
use crate::nodes::Mode;
use crate::ring::Ring;
use crate::rows;
use std::sync::Mutex;
use std::sync::mpsc::channel;
use std::thread;

const NODES: u32 = 5;
const KEYS: u32 = 16;
const W: u8 = 2;

pub struct Plan {
    pub seed: u64,
    pub threads: u64,
    pub puts: u64,
    pub faults: bool,
}

/// What came of the gets and puts of all clients.
pub struct Counts {
    pub acked: u64,
    pub gets: u64,
    pub refused: u64,
}

/// PCG XSH RR 64/32 (O'Neill, PCG, section 6.3), seeded as `rand_pcg` does.
struct Generator {
    state: u64,
    increment: u64,
}

impl Generator {
    const FACTOR: u64 = 6_364_136_223_846_793_005;

    fn new(seed: u64) -> Generator {
        // The seed is spread over the state and the stream by a generator of the same kind.
        let mut spread = Generator {
            state: seed,
            increment: 11_634_580_027_462_260_723,
        };
        let mut word = || {
            spread.step();
            u64::from(Generator::output(spread.state))
        };
        let state = word() | word() << 32;
        let increment = word() | word() << 32 | 1;
        let mut generator = Generator {
            state: state.wrapping_add(increment),
            increment,
        };
        generator.step();
        generator
    }

    fn step(&mut self) {
        self.state = self
            .state
            .wrapping_mul(Generator::FACTOR)
            .wrapping_add(self.increment);
    }

    fn output(state: u64) -> u32 {
        ((((state >> 18) ^ state) >> 27) as u32).rotate_right((state >> 59) as u32)
    }

    /// The next word modulo m.
    fn draw(&mut self, m: u32) -> u32 {
        let state = self.state;
        self.step();
        Generator::output(state) % m
    }
}

/// One thing fails, or comes back, for as many turns as there are clients.
struct Outages<'a> {
    plan: &'a Plan,
    generator: Generator,
    turns: u64,
    made: u64,
}

impl Outages<'_> {
    fn go_on(&mut self, cluster: &Cluster) {
        self.turns += 1;
        if self.turns < self.plan.threads {
            return;
        }
        self.turns = 0;
        self.disturb(cluster);
        self.made += 1;
        if self.made == self.plan.puts {
            for node in 0..NODES as u8 {
                cluster.set_up(node, true);
                cluster.set_mode(node, Mode::Plain);
            }
        }
    }

    fn disturb(&mut self, cluster: &Cluster) {
        let node = self.generator.draw(NODES) as u8;
        match self.generator.draw(4) {
            0 => cluster.set_up(node, false),
            1 => cluster.set_up(node, true),
            // At a node that is down nothing is handed over.
            2 => drop(calls::hand_over(&mut Direct::new(cluster), node)),
            _ => {
                let modes = [Mode::Plain, Mode::Mute, Mode::Late, Mode::Repeat];
                cluster.set_mode(node, modes[self.generator.draw(4) as usize]);
            }
        }
    }
}

/// Makes the turns of a client.
fn play(
    plan: &Plan,
    client: u64,
    outages: &Mutex<Outages>,
    boxes: Mailboxes,
    cluster: &Cluster,
) -> Session {
    let mut boxes = boxes;
    let mut session = Session::default();
    let mut generator = Generator::new(plan.seed.wrapping_add(client));
    for turn in 0..plan.puts {
        let key = rows::key(&format!("k{}", generator.draw(KEYS))).expect("it is short");
        let value = rows::value(format!("t{client}-{turn}").as_bytes()).expect("it is short");
        let context = calls::get(&mut boxes, &mut session, &key).map(|done| {
            calls::mend(&mut boxes, &key, &done);
            done.context
        });
        // What is refused is told by what the sums lack.
        let _ = calls::put(
            &mut boxes,
            &mut session,
            W,
            &key,
            &context.unwrap_or_default(),
            Some(value),
        );
        if plan.faults {
            outages.lock().expect("no thread panics").go_on(cluster);
        }
    }
    session
}

pub fn storm(plan: &Plan) -> Result<Counts, Fault> {
    let tokens = [0x20, 0x60, 0xa0, 0xd0, 0xf0].map(|byte: u128| vec![byte << 120]);
    let options = Options {
        n: 3,
        r: 2,
        w: W,
        counter_limit: MAX_COUNTER,
        versions_limit: MAX_VERSIONS,
        steps_limit: MAX_STEPS,
    };
    let cluster = &Cluster::new(Ring::new(&tokens)?, options)?;
    let generator = Generator::new(plan.seed.wrapping_add(plan.threads));
    let outages = &Mutex::new(Outages {
        plan,
        generator,
        turns: 0,
        made: 0,
    });
    let sessions: Vec<Session> = thread::scope(|scope| {
        let (post, inboxes): (Vec<_>, Vec<_>) = (0..cluster.nodes()).map(|_| channel()).unzip();
        for (node, inbox) in inboxes.into_iter().enumerate() {
            scope.spawn(move || cluster.serve(node as u8, inbox));
        }
        let clients = (0..plan.threads).map(|client| {
            let boxes = Mailboxes::new(cluster, post.clone());
            scope.spawn(move || play(plan, client, outages, boxes, cluster))
        });
        let clients: Vec<_> = clients.collect();
        // A worker ends when nobody can send to it.
        drop(post);
        clients
            .into_iter()
            .map(|it| it.join().expect("no thread panics"))
            .collect()
    });
    let acked: u64 = sessions.iter().map(|it| it.acks).sum();
    let gets = sessions.iter().map(|it| it.gets).sum();
    assert_eq!(acked, cluster.book().audit().acked.len() as u64);
    Ok(Counts {
        acked,
        gets,
        refused: 2 * plan.threads * plan.puts - acked - gets,
    })
}

#[cfg(test)]
mod tests {
    use super::Generator;

    #[test]
    fn generator_is_that_of_rand_pcg() {
        let mut generator = Generator::new(0);
        let low = u64::from(generator.draw(u32::MAX));
        let high = u64::from(generator.draw(u32::MAX));
        assert_eq!(high << 32 | low, 18_195_738_587_432_868_099_u64);
    }
}
