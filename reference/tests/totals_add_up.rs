//! Request 7 of document 02: totals add up over two groups of nodes, also as two other nodes
//! report them, and a payment with its opposite leaves them.

mod network;

use network::{random_payment, Figures, Group, Network, Told, View};
use reference::calls::{Calls, Rooms};
use reference::node::{AGE_LIMIT, TABLE_ROOM};
use reference::random::Random;
use reference::wire::{self, Payment};

/// Under the age limit, some only just.
const YOUNG: [u64; 4] = [0, 5, 1_000, AGE_LIMIT - 1];
const ANY_AGE: [u64; 5] = [0, 5, 1_000, AGE_LIMIT - 1, AGE_LIMIT];

/// A network, one of its members, and the view that this one has of the others.
fn random_view(random: &mut Random, own_ages: &[u64]) -> (Network, usize, View) {
    let network = Network::new(random);
    let me = random.below(network.members.len() as u64) as usize;
    let others = (0..network.members.len()).filter(|&member| member != me);
    let told: Vec<Told> = others.map(|member| Told::new(random, member)).collect();
    let own_age = random.pick(own_ages);
    let view = network.view(random, me, own_age, &told);
    (network, me, view)
}

/// Some payment stands in both groups.
fn share_payment(network: &Network, first: &Group, second: &Group) -> bool {
    let paid = |group: &Group| -> Vec<Payment> {
        let members = group.iter().map(|&member| &network.members[member]);
        members.flat_map(|member| member.paid.clone()).collect()
    };
    let others = paid(second);
    paid(first).iter().any(|payment| others.contains(payment))
}

/// The groups are any marking of identifiers; an empty one counts as 0.
#[test]
fn groups_add_up() {
    let mut random = Random::new(71);
    let (mut empty, mut shared, mut left_out) = (0, 0, 0);
    for _ in 0..10_000 {
        let (network, _, view) = random_view(&mut random, &ANY_AGE);
        let whole = Figures::asked(&view.node, view.now);
        left_out += usize::from(view.reach.len() < view.node.table.len());
        for _ in 0..3 {
            let any = random.word();
            let marking = random.pick(&[0, u32::MAX, any, any, any, any]);
            let is_marked = |member: usize| marking >> network.members[member].id & 1 == 1;
            let (first, second): (Group, Group) =
                view.reach.iter().partition(|&&member| is_marked(member));
            let parts = [&first, &second].map(|group| network.figures(group));
            assert_eq!(parts[0].clone().plus(&parts[1]), whole);
            if first.is_empty() {
                assert_eq!(parts, [Figures::default(), whole.clone()]);
                empty += 1;
            }
            shared += usize::from(share_payment(&network, &first, &second));
        }
    }
    let met = [empty, shared, left_out];
    assert!(met.iter().all(|&count| count > 2_000), "{met:?}");
}

/// What is wrong with two reports.
#[derive(Clone, Copy)]
enum Fault {
    Nothing,
    /// A member is in both.
    InBoth,
    /// The first node doesn't know the last payment of a member.
    Older,
}

/// Two groups that fill a reach, each of members joined to one another.
fn two_groups(
    random: &mut Random,
    network: &Network,
    reach: &[usize],
    from: [usize; 2],
) -> [Group; 2] {
    let mut groups = from.map(|member| Group::from([member]));
    while groups[0].len() + groups[1].len() < reach.len() {
        let (member, side) = (random.pick(reach), random.below(2) as usize);
        let is_joined = groups[side]
            .iter()
            .any(|&other| network.are_joined(member, other));
        if is_joined && !groups[1 - side].contains(&member) {
            groups[side].insert(member);
        }
    }
    groups
}

/// Two other nodes share out what we have in reach, and their answers are added. Clocks, numbers
/// and ages are their own. Nothing if it didn't work out so; else whether the answers add up.
fn reports(random: &mut Random, fault: Fault) -> Option<bool> {
    let (network, me, ours) = random_view(random, &YOUNG);
    let reach: Vec<usize> = ours.reach.iter().copied().collect();
    let member = random.pick(&reach);
    let mut others = reach.clone();
    others.retain(|&other| other != me);
    random.shuffle(&mut others);
    let &[valley, hill, ..] = others.as_slice() else {
        return None;
    };
    let mut groups = two_groups(random, &network, &reach, [valley, hill]);
    let whole = Figures::asked(&ours.node, ours.now);
    let mut expected = whole.clone();
    let mut known = [network.clone(), network.clone()];
    match fault {
        Fault::Nothing => {}
        Fault::InBoth => {
            groups = groups.map(|group| &group | &Group::from([member]));
            expected = expected.plus(&network.figures(&Group::from([member])));
        }
        Fault::Older if member == valley || groups[1].contains(&member) => return None,
        Fault::Older => {
            let payment = known[0].members[member].paid.pop()?;
            let amount = payment.amount.checked_neg()?;
            expected = expected.with(&Payment { amount, ..payment });
        }
    }
    let (mut added, mut unlike) = (Figures::default(), 0);
    for ((group, from), known) in groups.iter().zip([valley, hill]).zip(&known) {
        let mut told = Vec::new();
        for other in (0..network.members.len()).filter(|&other| other != from) {
            if group.contains(&other) || random.one_in(8) {
                told.push(Told::new(random, other));
            }
        }
        let own_age = random.pick(&ANY_AGE);
        let view = known.view(random, from, own_age, &told);
        if view.reach != *group {
            return None;
        }
        added = added.plus(&Figures::asked(&view.node, view.now));
        for id in group.iter().map(|&member| network.members[member].id) {
            let data = [&view, &ours].map(|view| view.node.show(TABLE_ROOM, id));
            unlike += usize::from(data[0] != data[1]);
        }
    }
    assert_eq!(unlike, usize::from(matches!(fault, Fault::Older)));
    assert_eq!(added, expected);
    Some(added == whole)
}

/// How many tries work out, and in how many of them the answers add up.
fn tries(seed: u64, fault: Fault) -> (usize, usize) {
    let mut random = Random::new(seed);
    let results = (0..20_000).filter_map(|_| reports(&mut random, fault));
    let results: Vec<bool> = results.collect();
    let equal = results.iter().filter(|&&equal| equal);
    (results.len(), equal.count())
}

#[test]
fn two_reports_add_up() {
    let (reports, equal) = tries(72, Fault::Nothing);
    assert!(reports > 4_000 && equal == reports, "{reports} {equal}");
}

/// They are off by what is counted twice or missing, so equal only where that is nothing.
#[test]
fn reports_with_a_fault_do_not_add_up() {
    for fault in [Fault::InBoth, Fault::Older] {
        let (reports, equal) = tries(73, fault);
        assert!(reports > 500 && equal < reports / 2, "{reports} {equal}");
    }
}

fn pay(random: &mut Random, view: &mut View, payment: &Payment) -> u32 {
    let (rooms, randoms) = (Rooms::default(), random.randoms());
    Calls::pay(&mut view.node, &rooms, view.now, payment, &randoms)
}

/// A payment and its opposite, under the same receipt or another.
fn random_pair(random: &mut Random) -> [Payment; 2] {
    loop {
        let payment = random_payment(random);
        let receipt = random.pick(&[payment.receipt, 1, u32::MAX]);
        // The least amount has none.
        if let Some(amount) = payment.amount.checked_neg() {
            let opposite = Payment {
                receipt,
                amount,
                ..payment
            };
            return [payment, opposite];
        }
    }
}

/// Our age is under the limit before the first one. Between the two, its household's total and
/// the sum are off by its amount.
#[test]
fn payment_and_opposite_leave_every_total() {
    let mut random = Random::new(74);
    let (mut kept, mut refused) = ([0; 2], 0);
    for _ in 0..20_000 {
        let (_, _, mut view) = random_view(&mut random, &YOUNG);
        let before = Figures::asked(&view.node, view.now);
        let [payment, opposite] = random_pair(&mut random);
        if pay(&mut random, &mut view, &payment) != 0 {
            continue;
        }
        let between = Figures::asked(&view.node, view.now);
        assert_eq!(between, before.clone().with(&payment));
        let own_data = view.node.own_entry().data();
        let stands = wire::contains(own_data, &wire::payment_tlv(&opposite));
        let refusal = pay(&mut random, &mut view, &opposite);
        assert_eq!(refusal, if stands { 8 } else { 0 });
        let after = Figures::asked(&view.node, view.now);
        if stands {
            assert_eq!(after, between);
            refused += 1;
        } else {
            assert_eq!(after, before);
            kept[usize::from(opposite.receipt == payment.receipt)] += 1;
        }
    }
    assert!(kept.iter().all(|&count| count > 5_000), "{kept:?}");
    assert!(refused > 500, "{refused}");
}

/// 0 is its own opposite: under one receipt it stands already, under another it doesn't.
#[test]
fn nothing_paid_twice() {
    let mut random = Random::new(75);
    for _ in 0..1_000 {
        let (_, _, mut view) = random_view(&mut random, &YOUNG);
        let before = Figures::asked(&view.node, view.now);
        let refusals = [8, 8, 9].map(|receipt| {
            let nothing = Payment {
                household: 17,
                receipt,
                amount: 0,
            };
            let refusal = pay(&mut random, &mut view, &nothing);
            assert_eq!(Figures::asked(&view.node, view.now), before);
            refusal
        });
        assert_eq!(refusals, [0, 8, 0]);
    }
}

/// At the limit only we were in reach; the first payment lets the others in. That our age was
/// under the limit at the last reading is too little.
#[test]
fn at_the_age_limit_others_come_in() {
    let mut random = Random::new(76);
    let (mut pairs, mut off, mut off_though_young) = (0, 0, 0);
    for _ in 0..10_000 {
        let own_ages = [AGE_LIMIT, AGE_LIMIT + 7];
        let (network, me, mut view) = random_view(&mut random, &own_ages);
        let young = view.node.own_entry().age_at(view.node.last) < AGE_LIMIT;
        let before = Figures::asked(&view.node, view.now);
        assert_eq!(before, network.figures(&Group::from([me])));
        let pair = random_pair(&mut random);
        if pair.map(|payment| pay(&mut random, &mut view, &payment)) != [0, 0] {
            continue;
        }
        let marked = view.node.marks(TABLE_ROOM, view.now).nodes;
        let in_reach = |member: &usize| marked.contains(&network.members[*member].id);
        let reach: Group = (0..network.members.len()).filter(in_reach).collect();
        let after = Figures::asked(&view.node, view.now);
        assert_eq!(after, network.figures(&reach));
        pairs += 1;
        off += usize::from(after != before);
        off_though_young += usize::from(young && after != before);
    }
    let met = [pairs, off, off_though_young];
    assert!(met.iter().all(|&count| count > 5_000), "{met:?}");
}
