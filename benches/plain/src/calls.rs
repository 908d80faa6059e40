//! Puts and gets, the repair of homes that a get found stale, and the handover of hints.
use crate::book::Place;
use crate::cluster::{Direct, Session, Transport};
use crate::contexts::{Context, Dot};
use crate::faults::Fault;
use crate::nodes::{Answer, Ask, Seen};
use crate::ring::Preference;
use crate::rows::{Key, Row, Value};

/// Which kind of answer a place gave.
#[derive(Clone, Copy)]
pub enum Kind {
    Stored,
    Row,
    Down,
    NoAnswer,
    Refused(Fault),
}

pub type AnswerRead = (Place, Kind);

pub struct PutFault {
    pub fault: Fault,
    /// The version that was made before it was refused.
    pub dot: Option<Dot>,
    pub answers: Vec<AnswerRead>,
}

pub struct GetDone {
    pub row: Row,
    pub context: Context,
    /// Whose rows were used, and every row that was read.
    pub from: Vec<Place>,
    pub seen: Vec<Seen>,
}

pub struct GetFault {
    pub fault: Fault,
    pub answers: Vec<AnswerRead>,
}

impl PutFault {
    fn early(fault: Fault) -> PutFault {
        PutFault {
            fault,
            dot: None,
            answers: Vec::new(),
        }
    }
}

impl GetFault {
    fn early(fault: Fault) -> GetFault {
        GetFault {
            fault,
            answers: Vec::new(),
        }
    }
}

/// What comes of the first node of the list that is not down.
fn somewhere<T>(
    list: &Preference,
    mut call: impl FnMut(u8, u8) -> Result<T, Fault>,
) -> Result<(Place, T), Fault> {
    for holder in list.nodes().iter().copied() {
        let home = list.home_for(holder);
        match call(holder, home) {
            Ok(done) => return Ok((Place { holder, home }, done)),
            Err(Fault::Down) => {}
            Err(fault) => return Err(fault),
        }
    }
    Err(Fault::NoNode)
}

/// The next answer; where it is not what was asked for, the next node is asked to stand in.
fn read_next<'a>(
    transport: &mut impl Transport,
    ask: &impl Fn(u8) -> Ask<'a>,
    stand_ins: &mut impl Iterator<Item = u8>,
    answers: &mut Vec<AnswerRead>,
) -> Option<(Place, Answer)> {
    let (place, answer) = transport.next()?;
    let kind = match &answer {
        Answer::Stored => Kind::Stored,
        Answer::Row(_) => Kind::Row,
        Answer::Down => Kind::Down,
        Answer::NoAnswer => Kind::NoAnswer,
        Answer::Refused(fault) => Kind::Refused(*fault),
    };
    answers.push((place, kind));
    let again = ask(place.home);
    if !again.is_served_by(&answer)
        && let Some(next) = stand_ins.next()
    {
        transport.ask(next, again);
    }
    Some((place, answer))
}

/// Puts a value, or that the key is deleted, behind what the context names, at w homes.
pub fn put(
    transport: &mut impl Transport,
    session: &mut Session,
    w: u8,
    key: &Key,
    context: &Context,
    value: Option<Value>,
) -> Result<(Dot, Vec<AnswerRead>), PutFault> {
    if !(1..=transport.cluster().options.n).contains(&w) {
        return Err(PutFault::early(Fault::BadQuorum));
    }
    transport.renew();
    let cluster = transport.cluster();
    let list = cluster.preference(key);
    let begun = somewhere(&list, |holder, home| {
        let mut node = cluster.node(holder);
        node.begin(&mut cluster.book(), home, key, context, value.clone())
    });
    let (own, (dot, row)) = begun.map_err(PutFault::early)?;
    let ask = |home| Ask::Store {
        home,
        key,
        row: &row,
    };
    let mut answers = Vec::with_capacity(list.nodes().len());
    answers.push((own, Kind::Stored));
    // A bit for each home that has it.
    let mut homes = 1_u32 << own.home;
    for home in list
        .homes()
        .iter()
        .copied()
        .filter(|home| *home != own.home)
    {
        transport.ask(home, ask(home));
    }
    let mut stand_ins = list.stand_ins(own.holder);
    while let Some((place, answer)) = read_next(transport, &ask, &mut stand_ins, &mut answers) {
        if matches!(answer, Answer::Stored) {
            homes |= 1 << place.home;
        }
    }
    if homes.count_ones() < u32::from(w) {
        return Err(PutFault {
            fault: Fault::NotEnough,
            dot: Some(dot),
            answers,
        });
    }
    // Taken by itself, since an ack is told in the order of the log.
    let acked = transport.cluster().book().ack(key, dot, w);
    match acked {
        Ok(at) => {
            session.since = session.since.max(at);
            session.acks += 1;
            Ok((dot, answers))
        }
        Err(fault) => Err(PutFault {
            fault,
            dot: Some(dot),
            answers,
        }),
    }
}

/// Gets the key: what r homes answered, by themselves or by nodes that stand in, is merged.
pub fn get(
    transport: &mut impl Transport,
    session: &mut Session,
    key: &Key,
) -> Result<GetDone, GetFault> {
    transport.renew();
    let cluster = transport.cluster();
    let r = usize::from(cluster.options.r);
    let list = cluster.preference(key);
    let looked = somewhere(&list, |holder, home| {
        let node = cluster.node(holder);
        node.fetch(&mut cluster.book(), home, key)
    });
    let (own, first) = looked.map_err(GetFault::early)?;
    let ask = |home| Ask::Fetch { home, key };
    let mut answers = Vec::with_capacity(list.nodes().len());
    answers.push((own, Kind::Row));
    let mut row = first.row.clone();
    let mut at = first.at;
    let mut from = Vec::with_capacity(r);
    from.push(own);
    let mut seen = Vec::with_capacity(r);
    seen.push(first);
    for home in list
        .homes()
        .iter()
        .copied()
        .filter(|home| *home != own.home)
    {
        transport.ask(home, ask(home));
    }
    let mut stand_ins = list.stand_ins(own.holder);
    while from.len() < r {
        let Some((place, answer)) = read_next(transport, &ask, &mut stand_ins, &mut answers) else {
            return Err(GetFault {
                fault: Fault::NotEnough,
                answers,
            });
        };
        let Answer::Row(other) = answer else { continue };
        // A home that answers twice, as by a stand-in and then itself, counts once.
        if from.iter().all(|it| it.home != place.home) {
            if other.row != row {
                row.merge(&other.row);
            }
            at = at.max(other.at);
            from.push(place);
        }
        seen.push(other);
    }
    session.since = session.since.max(at);
    session.gets += 1;
    Ok(GetDone {
        context: row.context(),
        row,
        from,
        seen,
    })
}

/// Has each home that answered by itself with another row store what the get gave.
pub fn mend(transport: &mut impl Transport, key: &Key, done: &GetDone) {
    let stale = done
        .seen
        .iter()
        .filter(|it| it.place.holder == it.place.home);
    let stale: Vec<u8> = stale
        .filter(|it| it.row != done.row)
        .map(|it| it.place.home)
        .collect();
    if stale.is_empty() {
        return;
    }
    transport.renew();
    for (at, home) in stale.iter().copied().enumerate() {
        if !stale[..at].contains(&home) {
            transport.ask(
                home,
                Ask::Store {
                    home,
                    key,
                    row: &done.row,
                },
            );
        }
    }
    while transport.next().is_some() {}
}

/// What a pass did: offers, those that were stored, and dots that left hints.
#[derive(Default)]
pub struct Pass {
    pub offers: usize,
    pub stored: usize,
    pub released: usize,
}

/// Hands over the node's hints one after another, each to its home.
pub fn hand_over(direct: &mut Direct, node: u8) -> Result<Pass, Fault> {
    direct.renew();
    let hints = direct.cluster().node(node).offer()?;
    let mut pass = Pass::default();
    for (home, key, row) in &hints {
        direct.ask(
            *home,
            Ask::Store {
                home: *home,
                key,
                row,
            },
        );
        pass.offers += 1;
        while let Some((_, answer)) = direct.next() {
            if matches!(answer, Answer::Stored) {
                pass.stored += 1;
                let cluster = direct.cluster();
                let mut node = cluster.node(node);
                let settled = node.settle(&mut cluster.book(), *home, key, row);
                pass.released += settled.unwrap_or(0);
            }
        }
    }
    Ok(pass)
}
