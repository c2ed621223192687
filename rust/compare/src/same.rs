//! Each call of both engines on the same input: the same answer, value and content of every lent slice.

use std::fmt::Debug;

use pnet::{Mode, Pair, Refusal, Size};
use reference::Fleet;

use crate::blank::{self, BLANK, ROOM};
use crate::hits::{Call, Hits};
use crate::{guarded, pnml, salvage, version_2, visits};

/// Number, thing, position and amount.
pub type Plain = (u64, u64, u64, u64);

pub fn told<V>(result: &Result<V, Refusal>) -> Plain {
    match result {
        Ok(_) => (0, 0, 0, 0),
        Err(refusal) => (refusal.number(), refusal.thing() as u64, refusal.position(), refusal.amount()),
    }
}

fn plain(answer: reference::Answer) -> Plain {
    (answer.number.into(), answer.thing.into(), answer.position, answer.amount)
}

fn plain_of<V>(result: &Result<V, reference::Answer>) -> Plain {
    plain(reference::Answer::of(result))
}

/// The modes of a step.
pub fn members(modes: &[u16]) -> Vec<Mode> {
    modes.iter().copied().map(Mode).collect()
}

/// The comparison so far.
pub struct Same {
    pub hits: Hits,
    /// What is being compared, for a difference that is found.
    pub part: String,
    /// What the reference writes a sheet or a text into: between two calls all of it is blank.
    out: Vec<u8>,
}

impl Same {
    pub fn new() -> Same {
        Same { hits: Hits::default(), part: String::new(), out: vec![BLANK; ROOM] }
    }

    /// Both outcomes are the same, or the comparison ends here.
    fn hold<O: PartialEq + Debug>(
        &mut self,
        call: Call,
        answer: Plain,
        engine: O,
        reference: O,
        input: &[&dyn Debug],
    ) {
        if engine != reference {
            panic!(
                "{}: {call:?}: the engine {engine:?}, the reference {reference:?}, on {input:?}",
                self.part
            );
        }
        self.hits.told(call, answer.0, answer.1);
        if answer.3 > 1 {
            self.hits.by_more(answer.0);
        }
    }

    /// A reader: the bytes after the sheet are those that the reference's count leaves.
    fn read(
        &mut self,
        call: Call,
        bytes: &[u8],
        engine: Result<&[u8], Refusal>,
        reference: (reference::Answer, usize),
    ) {
        let answer = told(&engine);
        let rest = &bytes[reference.1..];
        let handed = engine.unwrap_or(bytes);
        assert!(std::ptr::eq(handed, rest), "{}: {call:?} hands back another part of {bytes:?}", self.part);
        self.hold(call, answer, answer, plain(reference.0), &[&bytes]);
    }

    pub fn read_net(&mut self, bytes: &[u8]) {
        let engine = guarded::read_net(bytes);
        let answer = told(&engine);
        self.read(Call::ReadNet, bytes, engine, reference::read_net(bytes));
        if let Some(&version) = bytes.get(4) {
            self.hits.of_version(version, answer.0);
        }
        if let Some(fault) = engine.err().and_then(|refusal| version_2::fault(bytes, &refusal)) {
            self.hits.value(fault);
        }
    }

    pub fn read_weights(&mut self, bytes: &[u8], pairs: usize) {
        self.read(
            Call::ReadWeights,
            bytes,
            guarded::read_weights(bytes, pairs),
            reference::read_weights(bytes, pairs),
        );
    }

    pub fn read_movements(&mut self, bytes: &[u8]) {
        self.read(
            Call::ReadMovements,
            bytes,
            guarded::read_movements(bytes),
            reference::read_movements(bytes),
        );
    }

    /// The first marking, where the net has one of this length.
    pub fn begin(&mut self, net: &[u8], marking: &[u32]) -> Vec<u32> {
        let (mut ours, mut theirs) = (marking.to_vec(), marking.to_vec());
        let answer = told(&guarded::begin(net, &mut ours));
        let reference = plain(reference::begin(net, &mut theirs));
        self.hold(Call::Begin, answer, (answer, &ours), (reference, &theirs), &[&net, &marking]);
        ours
    }

    pub fn test(&mut self, net: &[u8], marking: &[u32], mode: u16) {
        let answer = told(&guarded::test(net, marking, Mode(mode)));
        let reference = plain(reference::test(net, marking, mode));
        self.hold(Call::Test, answer, answer, reference, &[&net, &marking, &mode]);
    }

    /// The answer, and the marking after it.
    pub fn fire(&mut self, net: &[u8], marking: &[u32], mode: u16) -> (Plain, Vec<u32>) {
        let (mut ours, mut theirs) = (marking.to_vec(), marking.to_vec());
        let answer = told(&guarded::fire(net, &mut ours, Mode(mode)));
        let reference = plain(reference::fire(net, &mut theirs, mode));
        self.hold(Call::Fire, answer, (answer, &ours), (reference, &theirs), &[&net, &marking, &mode]);
        (answer, ours)
    }

    pub fn test_step(&mut self, net: &[u8], marking: &[u32], modes: &[u16]) {
        let answer = told(&guarded::test_step(net, marking, &members(modes)));
        let reference = plain(reference::test_step(net, marking, modes));
        self.hold(Call::TestStep, answer, answer, reference, &[&net, &marking, &modes]);
    }

    /// The answer, and the marking after it.
    pub fn fire_step(&mut self, net: &[u8], marking: &[u32], modes: &[u16]) -> (Plain, Vec<u32>) {
        let (mut ours, mut theirs) = (marking.to_vec(), marking.to_vec());
        let answer = told(&guarded::fire_step(net, &mut ours, &members(modes)));
        let reference = plain(reference::fire_step(net, &mut theirs, modes));
        self.hold(Call::FireStep, answer, (answer, &ours), (reference, &theirs), &[&net, &marking, &modes]);
        (answer, ours)
    }

    /// How many movements were accepted, the answer, and the marking after them.
    pub fn run(&mut self, net: &[u8], movements: &[u8], marking: &[u32]) -> (usize, Plain, Vec<u32>) {
        let (mut ours, mut theirs) = (marking.to_vec(), marking.to_vec());
        let ran = guarded::run(net, movements, &mut ours);
        let answer = told(&ran.result);
        let reference = reference::run(net, movements, &mut theirs);
        let engine = (ran.accepted as u64, ran.arcs as u64, answer, &ours);
        let reference = (reference.accepted, reference.arcs, plain(reference.answer), &theirs);
        self.hold(Call::Run, answer, engine, reference, &[&net, &movements, &marking]);
        if movements.len() > 5 {
            self.hits.ran(ran.accepted, ran.result.is_ok());
        }
        // A run that is refused by other numbers has tried no movement.
        let stopped = matches!(answer, (6 | 11..=14, 2, ..));
        if stopped || ran.result.is_ok() {
            visits::bounded(&mut self.hits, net, movements, &ran, stopped);
        }
        (ran.accepted, answer, ours)
    }

    /// What is salvaged into a slice of this length.
    pub fn salvage(&mut self, net: &[u8], damaged: &[u8], room: usize) {
        let engine = guarded::salvage(net, damaged, room);
        let out = &mut self.out[..room];
        let reference = reference::salvage(net, damaged, out);
        let theirs = blank::taken(out, reference.map_or(0, |of| of.length));
        let (answer, plainly) = (told(&engine), plain_of(&reference));
        let stopped = |stop: Option<Refusal>| told(&stop.map_or(Ok(()), Err));
        let value =
            engine.ok().map(|(of, fresh)| (of.length, (of.kept, of.dropped, stopped(of.stop)), fresh));
        let reference = reference.ok().map(|of| (of.length, (of.kept, of.dropped, plain(of.stop)), theirs));
        let input: [&dyn Debug; 3] = [&net, &damaged, &room];
        self.hold(Call::Salvage, answer, (answer, &value), (plainly, &reference), &input);
        if let Some((_, report, fresh)) = value {
            salvage::holds(self, net, damaged, report, &fresh);
        }
    }

    /// The answer to a ship, and the record after it.
    pub fn fleet_add(
        &mut self,
        record: &Fleet,
        net: &[u8],
        weights: &[u8],
        movements: &[u8],
    ) -> (Plain, Fleet) {
        let Fleet { ships, movements: accepted, refused, added, removed } = *record;
        let mut ours = pnet::Fleet { ships, movements: accepted, refused, added, removed };
        let mut theirs = *record;
        let answer = told(&guarded::fleet_add(&mut ours, net, weights, movements));
        let reference = plain(reference::fleet_add(&mut theirs, net, weights, movements));
        let pnet::Fleet { ships, movements: accepted, refused, added, removed } = ours;
        let ours = Fleet { ships, movements: accepted, refused, added, removed };
        let input: [&dyn Debug; 4] = [record, &net, &weights, &movements];
        self.hold(Call::FleetAdd, answer, (answer, ours), (reference, theirs), &input);
        (answer, ours)
    }

    pub fn certify(&mut self, net: &[u8], movements: &[u8], claim: &[u32]) {
        let answer = told(&guarded::certify(net, movements, claim));
        let reference = plain(reference::certify(net, movements, claim));
        self.hold(Call::Certify, answer, answer, reference, &[&net, &movements, &claim]);
    }

    pub fn figure(&mut self, net: &[u8], weights: &[u8], marking: &[u32]) {
        let engine = guarded::figure(net, weights, marking);
        let reference = reference::figure(net, weights, marking);
        let (answer, value) = (told(&engine), engine.ok());
        let reference = (plain_of(&reference), reference.ok());
        self.hold(Call::Figure, answer, (answer, value), reference, &[&net, &weights, &marking]);
    }

    /// The answer.
    pub fn exclude(&mut self, net: &[u8], weights: &[u8], claim: &[u32]) -> Plain {
        let answer = told(&guarded::exclude(net, weights, claim));
        let reference = plain(reference::exclude(net, weights, claim));
        self.hold(Call::Exclude, answer, answer, reference, &[&net, &weights, &claim]);
        answer
    }

    pub fn change(&mut self, net: &[u8], weights: &[u8], mode: u16) {
        let engine = guarded::change(net, weights, Mode(mode));
        let reference = reference::change(net, weights, mode);
        let (answer, value) = (told(&engine), engine.ok());
        let reference = (plain_of(&reference), reference.ok());
        self.hold(Call::Change, answer, (answer, value), reference, &[&net, &weights, &mode]);
    }

    pub fn is_dead(&mut self, net: &[u8], mode: u16) {
        let engine = guarded::is_dead(net, Mode(mode));
        let reference = reference::is_dead(net, mode);
        let (answer, value) = (told(&engine), engine.ok());
        let reference = (plain_of(&reference), reference.ok());
        self.hold(Call::IsDead, answer, (answer, value), reference, &[&net, &mode]);
        if let Some(dead) = value {
            self.hits.value(if dead { "yes" } else { "no" });
        }
    }

    pub fn first_dead(&mut self, net: &[u8]) {
        let engine = guarded::first_dead(net);
        let reference = reference::first_dead(net);
        let (answer, value) =
            (told(&engine), engine.ok().map(|named| named.map(|(mode, pair)| (mode.0, pair.0))));
        let theirs = plain_of(&reference);
        let reference = (theirs, reference.ok().map(|named| named.map(|(mode, pair)| (mode.0, pair.0))));
        self.hold(Call::FirstDead, answer, (answer, value), reference, &[&net]);
        if let Some(named) = value {
            self.hits.value(if named.is_some() { "named" } else { "none named" });
        }
    }

    /// The size, where the net is accepted.
    pub fn size(&mut self, net: &[u8]) -> Option<Size> {
        let engine = guarded::size(net);
        let reference = reference::size(net);
        let (answer, value) = (told(&engine), engine.ok().map(|size| (size.pairs, size.modes, size.arcs)));
        let theirs = plain_of(&reference);
        let reference = (theirs, reference.ok().map(|size| (size.pairs, size.modes, size.arcs)));
        self.hold(Call::Size, answer, (answer, value), reference, &[&net]);
        engine.ok()
    }

    /// A call that writes a sheet or a text into a slice of this length: its answer, and what it writes, where there is anything.
    fn write(
        &mut self,
        call: Call,
        engine: Result<Vec<u8>, Refusal>,
        reference: impl FnOnce(&[u8], &mut [u8]) -> Result<usize, reference::Answer>,
        given: &[u8],
        room: usize,
    ) -> (Plain, Option<Vec<u8>>) {
        let out = &mut self.out[..room];
        let reference = reference(given, out);
        let theirs = blank::taken(out, reference.unwrap_or(0));
        let reference = (plain_of(&reference), reference.ok().map(|_| theirs));
        let (answer, value) = (told(&engine), engine.ok());
        self.hold(call, answer, (answer, &value), (reference.0, &reference.1), &[&given, &room]);
        (answer, value)
    }

    /// The complement, where there is one.
    pub fn complement(&mut self, net: &[u8], room: usize) -> Option<Vec<u8>> {
        let engine = guarded::complement(net, room);
        self.write(Call::Complement, engine, reference::complement, net, room).1
    }

    /// The sheet with a transition that strips a pair, where there is one.
    pub fn strip(&mut self, net: &[u8], pair: u16, room: usize) -> Option<Vec<u8>> {
        let engine = guarded::strip(net, Pair(pair), room);
        self.write(Call::Strip, engine, |net, out| reference::strip(net, pair, out), net, room).1
    }

    /// The sheet of version 2, where the net is in version 1.
    pub fn to_version_2(&mut self, net: &[u8], room: usize) -> Option<Vec<u8>> {
        let engine = guarded::to_version_2(net, room);
        self.write(Call::ToVersion2, engine, reference::to_version_2, net, room).1
    }

    /// The sheet of version 1, where the net is in version 2.
    pub fn to_version_1(&mut self, net: &[u8], room: usize) -> Option<Vec<u8>> {
        let engine = guarded::to_version_1(net, room);
        self.write(Call::ToVersion1, engine, reference::to_version_1, net, room).1
    }

    /// The net's text in PNML, where every K and I is unbounded.
    pub fn export_pnml(&mut self, net: &[u8], room: usize) -> Option<Vec<u8>> {
        let engine = guarded::export_pnml(net, room);
        let (answer, text) = self.write(Call::ExportPnml, engine, reference::export_pnml, net, room);
        if answer.0 == 19 {
            self.hits.value(pnml::bounded(net, answer.2));
        }
        text
    }

    /// The sheet of a text that is an export, into a slice of this length.
    pub fn import_pnml(&mut self, text: &[u8], room: usize) -> Option<Vec<u8>> {
        let engine = guarded::import_pnml(text, room);
        let (answer, sheet) = self.write(Call::ImportPnml, engine, reference::import_pnml, text, room);
        pnml::holds(self, text, answer, sheet.as_deref());
        sheet
    }

    /// The answer, and the pair out of step with its excess, where there is one.
    pub fn audit(&mut self, net: &[u8], marking: &[u32], both: &[u32]) -> (Plain, Option<(u16, i64)>) {
        let engine = guarded::audit(net, marking, both);
        let reference = reference::audit(net, marking, both);
        let (answer, theirs) = (told(&engine), plain_of(&reference));
        let found = engine.ok().flatten().map(|out| (out.pair.0, out.excess));
        let reference = reference.ok().flatten().map(|out| (out.pair.0, out.excess));
        self.hold(Call::Audit, answer, (answer, found), (theirs, reference), &[&net, &marking, &both]);
        match answer.0 {
            0 => self.hits.value(if found.is_some() { "out of step" } else { "in step" }),
            17 if reference::size(net).is_ok_and(|size| size.pairs == marking.len()) => {
                self.hits.value("17 for the complement's marking");
            }
            _ => {}
        }
        (answer, found)
    }

    /// The text of `replay`, into a slice of this length.
    pub fn statement(&mut self, input: &[u8], room: usize) {
        let engine = guarded::statement(input, room);
        let (answer, value) = (told(&engine), engine.ok());
        let text = reference::replay(input);
        let stopped = || text.split(|&byte| byte == b'\n').any(|line| line.starts_with(b"refused"));
        self.hits.value(match &text[..] {
            b"long\n" => "long",
            [b'b', b'a', b'd', ..] => "text of a bad sheet",
            _ if stopped() => "text of a stopped run",
            _ => "text of a whole run",
        });
        let reference =
            if room < pnet::TEXT_ROOM { ((10, 0, 0, 0), None) } else { ((0, 0, 0, 0), Some(text)) };
        self.hold(Call::Statement, answer, (answer, value), reference, &[&input, &room]);
    }
}
