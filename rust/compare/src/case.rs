//! One input for every call: sheets, a marking, one of the complement, a claim, a mode, a pair, a step, a record.

use pnet::Mode;
use reference::build::{PlainNet, movements, weights};
use reference::{Fleet, Form};

use crate::demand3::completed;
use crate::guarded;
use crate::same::Same;
use crate::{fleet, pnml, rules, versions};
use generator::{self, Random, Style, total};

/// What every call is tried on.
#[derive(Clone)]
pub struct Case {
    /// The version and rule of the net's sheet, before any damage.
    pub form: Form,
    pub net: Vec<u8>,
    pub weights: Vec<u8>,
    pub movements: Vec<u8>,
    pub marking: Vec<u32>,
    pub claim: Vec<u32>,
    pub mode: u16,
    /// The pair that is stripped.
    pub pair: u16,
    /// The modes of a step.
    pub step: Vec<u16>,
    /// A marking of the complement.
    pub both: Vec<u32>,
    /// A fleet's record.
    pub record: Fleet,
    /// What the weights' reader is given for the net's pair count.
    pub pairs: usize,
    /// The length of the output slice of a call that writes a sheet.
    pub room: usize,
}

impl Case {
    /// A case without a fault around a net, its sheet of this version and rule and its list at most so long.
    pub fn of(random: &mut Random, style: Style, plain: &PlainNet, form: Form, most: usize) -> Case {
        let net = plain.sheet_in(form);
        let first: Vec<u32> = plain.pairs.iter().map(|&(_, count)| count).collect();
        let marking = if random.once_in(2) {
            first.clone()
        } else {
            plain.pairs.iter().map(|&(capacity, _)| generator::count(random, style, capacity)).collect()
        };
        let list = walk(random, &net, &marking, total(&plain.modes), most);
        let sheet = movements(&list);
        let mut claim = first;
        guarded::run(&net, &sheet, &mut claim);
        if random.once_in(3) {
            let pair = random.below(claim.len());
            claim[pair] = random.pick(&[0, 1, claim[pair] ^ 1, u32::MAX]);
        }
        let mut both = completed(plain, &marking);
        if random.once_in(2) {
            let pair = random.below(both.len());
            both[pair] = random.pick(&[0, 1, both[pair] ^ 1, u32::MAX]);
        }
        Case {
            form,
            both,
            weights: weights(&generator::weights(random, plain.pairs.len())),
            movements: sheet,
            marking,
            claim,
            mode: random.below(total(&plain.modes).max(1)) as u16,
            pair: random.below(plain.pairs.len()) as u16,
            step: generator::step(random, plain),
            record: if random.once_in(2) { Fleet::default() } else { fleet::any_record(random) },
            pairs: plain.pairs.len(),
            room: pnet::LARGEST_NET,
            net,
        }
    }

    /// The room of a call that writes a text: as much as it needs, but where a room was made too short.
    fn room_or(&self, enough: usize) -> usize {
        if self.room < pnet::LARGEST_NET { self.room } else { enough }
    }

    /// Every call on this input; and on the same net in the other version, where it is accepted.
    pub fn compare(&self, same: &mut Same) {
        same.read_net(&self.net);
        same.read_weights(&self.weights, self.pairs);
        same.read_movements(&self.movements);
        same.begin(&self.net, &self.marking);
        same.test(&self.net, &self.marking, self.mode);
        same.fire(&self.net, &self.marking, self.mode);
        same.test_step(&self.net, &self.marking, &self.step);
        same.fire_step(&self.net, &self.marking, &self.step);
        same.run(&self.net, &self.movements, &self.marking);
        same.salvage(&self.net, &self.movements, self.room);
        same.fleet_add(&self.record, &self.net, &self.weights, &self.movements);
        same.certify(&self.net, &self.movements, &self.claim);
        same.figure(&self.net, &self.weights, &self.marking);
        same.change(&self.net, &self.weights, self.mode);
        same.exclude(&self.net, &self.weights, &self.claim);
        same.exclude(&self.net, &self.weights, &self.marking);
        same.is_dead(&self.net, self.mode);
        same.first_dead(&self.net);
        let size = same.size(&self.net);
        let text_room = size.map_or(64, pnml::room);
        same.complement(&self.net, self.room);
        same.strip(&self.net, self.pair, self.room);
        same.to_version_2(&self.net, self.room);
        same.to_version_1(&self.net, self.room);
        same.export_pnml(&self.net, self.room_or(text_room));
        same.audit(&self.net, &self.marking, &self.both);
        let input = [&self.net[..], &self.weights, &self.movements].concat();
        same.statement(&input, self.room_or(pnet::TEXT_ROOM));
        versions::answer_equally(same, self, text_room);
        if size.is_some() && rules::is_weak(&self.net) {
            same.hits.value("a net of rule 1, over every call");
        }
    }
}

/// A list of movements from a marking, such as are enabled when they come. One list in four goes on with any modes, and so mostly to
/// one that is refused; one in eight has a mode somewhere that is refused or is not there.
pub fn walk(random: &mut Random, net: &[u8], marking: &[u32], modes: usize, most: usize) -> Vec<u16> {
    let mut list = Vec::new();
    if modes > 0 {
        let length = random.below(most + 1);
        list = enabled(random, net, marking.to_vec(), modes, length);
        if random.once_in(4) {
            list.extend((0..8).map(|_| random.below(modes) as u16));
        }
    }
    if random.once_in(8) {
        let at = random.below(list.len() + 1);
        let odd = [random.below(modes.max(1)), modes, 256, 65_535];
        list.insert(at, random.pick(&odd) as u16);
    }
    list.truncate(8_192);
    list
}

/// So many movements from a marking, each the first of six modes that is enabled when it comes; none after one where no mode of the six is. The
/// first modes of many movements are run as one list, since each call reads the whole net.
fn enabled(random: &mut Random, net: &[u8], mut marking: Vec<u32>, modes: usize, length: usize) -> Vec<u16> {
    let six = |random: &mut Random| [(); 6].map(|()| random.below(modes) as u16);
    let (mut list, mut ahead) = (Vec::new(), 1);
    while list.len() < length {
        let mut next = random.clone();
        let first: Vec<u16> = (0..ahead.min(length - list.len())).map(|_| six(&mut next)[0]).collect();
        let accepted = guarded::run(net, &movements(&first), &mut marking).accepted;
        list.extend(&first[..accepted]);
        for _ in 0..accepted {
            six(random);
        }
        if accepted == first.len() {
            ahead *= 2;
            continue;
        }
        ahead = 1;
        let mode = six(random)[1..]
            .iter()
            .copied()
            .find(|&mode| guarded::fire(net, &mut marking, Mode(mode)).is_ok());
        let Some(mode) = mode else { break };
        list.push(mode);
    }
    list
}
