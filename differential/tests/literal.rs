//! The fast parts of the second implementation against the definitions word for word, and these
//! against those of document 01 in the network in which each set of mates is one span; by the rule of
//! mates and by the old one. Also the definitions by the old rule against those of the network in which
//! each span lies in the duct of its number and 1, and the sizes of a district and its rings, which add up
//! whatever the mates. Also the rounding of shares, of all implementations.

use differential::engine::MOST_CABINETS;
use differential::incremental;
use differential::layouts::{self, DUCTS};
use differential::literal::{self, Plant};
use differential::names::marks::is_share;
use differential::pairs::{serve, Pair};
use differential::random::Random;
use differential::records::arrangements;
use differential::second::book::Book;
use differential::second::exchanges::{counts, thousandths, Exchanges};
use differential::second::groups::{
    cut_cabinets, groups, is_sole, route, shared_mesh, sole_spans, Network,
};
use differential::second::mates::Rule;
use differential::second::routes::{Choice, OTHER_CHOICES};
use differential::second::sizes::size;
use differential::second::surveys::{Record, Surveys};
use differential::spans::Span;

fn check_groups(network: &Network) {
    let plant = Plant::of(network);
    let found = groups(network);
    for a in 0..network.cabinets {
        for b in 0..network.cabinets {
            let district = found.district[a] == found.district[b];
            assert_eq!(district, literal::share_district(plant, a, b), "{network:?} {a} {b}");
            let ring = found.ring[a] == found.ring[b];
            assert_eq!(ring, literal::share_ring(plant, a, b), "{network:?} {a} {b}");
        }
    }
    for s in 0..network.spans.len() {
        for t in 0..network.spans.len() {
            let mesh = found.mesh[s] == found.mesh[t];
            assert_eq!(mesh, literal::share_mesh(plant, s, t), "{network:?} {s} {t}");
        }
        assert_eq!(is_sole(network, &found, s), literal::is_sole(plant, s), "{network:?} {s}");
    }
}

fn check_questions(network: &Network) {
    let plant = Plant::of(network);
    let found = groups(network);
    for a in 0..network.cabinets {
        for b in 0..network.cabinets {
            match route(network, a, b) {
                None => assert!(!literal::share_district(plant, a, b)),
                Some(route) => {
                    let sole = sole_spans(network, &found, &route);
                    assert_eq!(sole, literal::sole_spans(plant, a, b), "{network:?} {a} {b}");
                    let cut = cut_cabinets(&found, &route);
                    assert_eq!(cut, literal::cut_cabinets(plant, a, b), "{network:?} {a} {b}");
                }
            }
            if a != b {
                check_shared_mesh(network, a, b);
            }
        }
    }
}

/// The shared mesh is found exactly if there is one, and there is at most one.
fn check_shared_mesh(network: &Network, a: usize, b: usize) {
    let plant = Plant::of(network);
    let found = shared_mesh(network, &groups(network), a, b);
    let shared = literal::spans_of_shared_mesh(plant, a, b);
    assert_eq!(found.is_some(), !shared.is_empty(), "{network:?} {a} {b}");
    if let Some(span) = found {
        assert!(shared.contains(&span), "{network:?} {a} {b}");
    }
    for &s in &shared {
        assert!(literal::share_mesh(plant, s, shared[0]), "{network:?} {a} {b}");
    }
}

/// The size of each cabinet's district and ring.
fn check_sizes(network: &Network) {
    let plant = Plant::of(network);
    let found = groups(network);
    for a in 0..network.cabinets {
        let district = literal::size(plant, literal::share_district, a);
        assert_eq!(size(&found.district, a), district, "{network:?} {a}");
        let ring = literal::size(plant, literal::share_ring, a);
        assert_eq!(size(&found.ring, a), ring, "{network:?} {a}");
    }
    check_sums(plant);
}

/// The sizes of the rings of a district, each counted once, add up to the district's. A district is asked
/// for by its least cabinet.
fn check_sums(plant: Plant) {
    let is_least = |&a: &usize| (0..a).all(|lesser| !literal::share_district(plant, lesser, a));
    for a in (0..plant.network.cabinets).filter(is_least) {
        let district = literal::size(plant, literal::share_district, a);
        assert_eq!(literal::sum_of_rings(plant, a), district, "{:?} {a}", plant.network);
    }
}

/// The book's names for the spans of a network, entered one after the other.
fn check_names(network: &Network) {
    let mut book = Book::empty(network.rule, None, None);
    for _ in 0..network.cabinets {
        book = book.with_cabinet();
    }
    for &span in &network.spans {
        let after = book.with_span(span);
        check_names_after(&book, &after);
        book = after;
    }
}

/// The groups without the span are those of the network before it: its mates stay in.
fn check_names_after(before: &Book, after: &Book) {
    let (old, new) = (Plant::of(&before.network), Plant::of(&after.network));
    let district = literal::renamed(
        &before.names.district,
        &|x, y| literal::share_district(old, x, y),
        &|x, y| literal::share_district(new, x, y),
    );
    assert_eq!(after.names.district, district, "{:?}", after.network);
    let ring =
        literal::renamed(&before.names.ring, &|x, y| literal::share_ring(old, x, y), &|x, y| {
            literal::share_ring(new, x, y)
        });
    assert_eq!(after.names.ring, ring, "{:?}", after.network);
    let number = before.network.spans.len();
    let mut first = before.names.mesh.clone();
    first.push(number);
    let alone = |x: usize, y: usize| x == y && x == number;
    let mesh = literal::renamed(
        &first,
        &|x, y| alone(x, y) || (x != number && y != number && literal::share_mesh(old, x, y)),
        &|x, y| literal::share_mesh(new, x, y),
    );
    assert_eq!(after.names.mesh, mesh, "{:?}", after.network);
}

/// Sets of up to eight exchanges, a bit for each cabinet.
const SOME_SETS: [usize; 4] = [0b0000_0001, 0b0001_0010, 0b0110_1100, 0b1111_1111];

/// The exchange questions, with every set of exchanges among few cabinets, with some among more.
fn check_exchanges(network: &Network) {
    let every_set: Vec<usize> = (0..1 << network.cabinets).collect();
    let sets = if network.cabinets <= 4 { &every_set[..] } else { &SOME_SETS };
    for set in sets {
        let is_marked = |cabinet: &usize| set >> cabinet & 1 == 1;
        let marked: Vec<usize> = (0..network.cabinets).filter(is_marked).collect();
        check_marked(network, &marked);
    }
}

/// Each ring's count is that of its exchanges, and over all rings the counts add up.
fn check_marked(network: &Network, marked: &[usize]) {
    let plant = Plant::of(network);
    let found = groups(network);
    let none = Exchanges::none(None);
    let exchanges = marked.iter().fold(none, |exchanges, &cabinet| exchanges.with(cabinet));
    let counts = counts(&found.ring, marked);
    for a in 0..network.cabinets {
        let fed = exchanges.feed(&found, a);
        assert_eq!(fed, literal::is_fed(plant, marked, a), "{network:?} {marked:?} {a}");
        let beside = marked.iter().filter(|&&b| literal::share_ring(plant, a, b)).count();
        assert_eq!(counts[found.ring[a]], beside, "{network:?} {marked:?} {a}");
    }
    assert_eq!(counts.iter().sum::<usize>(), marked.len(), "{network:?} {marked:?}");
    let share = exchanges.share(&found);
    assert_eq!(share, literal::fed_share(plant, marked), "{network:?} {marked:?}");
}

/// Two different cabinets share a ring exactly if there is a pair of routes; then every choice is one
/// of these pairs, and all of them serve.
fn check_routes(network: &Network) {
    let plant = Plant::of(network);
    for a in 0..network.cabinets {
        for b in (0..network.cabinets).filter(|&b| b != a) {
            let all = literal::pairs(plant, a, b);
            let ring = literal::share_ring(plant, a, b);
            assert_eq!(ring, !all.is_empty(), "{network:?} {a} {b}");
            for choice in [Choice::Own].into_iter().chain(OTHER_CHOICES) {
                let chosen = choice.pair(network, a, b);
                assert_eq!(ring, chosen.is_some(), "{network:?} {a} {b} {choice:?}");
                let is_one = chosen.is_none_or(|pair| all.contains(&pair));
                assert!(is_one, "{network:?} {a} {b} {choice:?}");
            }
            for pair in &all {
                assert_eq!(
                    serve(plant.mates, &network.spans, a, b, pair),
                    Ok(()),
                    "{network:?} {a} {b}"
                );
            }
        }
    }
}

/// Of all pairs of lists of up to three numbers, that of a span which is not there among them, those
/// serve that are pairs of routes.
fn check_lists(network: &Network) {
    let plant = Plant::of(network);
    let numbers: Vec<usize> = (0..=network.spans.len()).collect();
    let mut lists = Vec::new();
    (0..=3).for_each(|length| layouts::every_list(&numbers, length, &mut |list| lists.push(list)));
    for a in 0..network.cabinets {
        for b in (0..network.cabinets).filter(|&b| b != a) {
            let all = literal::pairs(plant, a, b);
            let mut served: Vec<Pair> = Vec::new();
            for one in &lists {
                let pairs = lists.iter().map(|other| [one.clone(), other.clone()]);
                served.extend(
                    pairs.filter(|pair| serve(plant.mates, &network.spans, a, b, pair).is_ok()),
                );
            }
            assert_eq!(served.len(), all.len(), "{network:?} {a} {b}");
            assert!(served.iter().all(|pair| all.contains(pair)), "{network:?} {a} {b}");
        }
    }
}

/// The groups by losses are those of document 01 for the network in which each set of mates is one
/// span, and so are the lists of 06 and 07.
fn check_reduced(network: &Network) {
    let reduced = literal::reduced(network);
    let (whole, single) = (Plant::of(network), Plant::without_mates(&reduced.network));
    check_reduced_pairs(whole, single, &reduced.number);
    let stands_for = |span: usize| reduced.stands_for[span];
    for s in 0..network.spans.len() {
        for t in 0..network.spans.len() {
            let mesh = literal::share_mesh(single, stands_for(s), stands_for(t));
            assert_eq!(literal::share_mesh(whole, s, t), mesh, "{network:?} {s} {t}");
        }
        let sole = literal::is_sole(single, stands_for(s));
        assert_eq!(literal::is_sole(whole, s), sole, "{network:?} {s}");
    }
}

/// `number` has for each span of the single ones its number in the whole network.
fn check_reduced_pairs(whole: Plant, single: Plant, number: &[usize]) {
    let network = whole.network;
    for a in 0..network.cabinets {
        for b in 0..network.cabinets {
            let district = literal::share_district(single, a, b);
            assert_eq!(literal::share_district(whole, a, b), district, "{network:?} {a} {b}");
            let ring = literal::share_ring(single, a, b);
            assert_eq!(literal::share_ring(whole, a, b), ring, "{network:?} {a} {b}");
            if district {
                let sole = literal::sole_spans(single, a, b);
                let sole: Vec<usize> = sole.into_iter().map(|span| number[span]).collect();
                assert_eq!(literal::sole_spans(whole, a, b), sole, "{network:?} {a} {b}");
                let cut = literal::cut_cabinets(single, a, b);
                assert_eq!(literal::cut_cabinets(whole, a, b), cut, "{network:?} {a} {b}");
            }
            if a != b {
                check_reduced_mesh(whole, single, number, a, b);
            }
        }
    }
}

/// Two cabinets share a mesh exactly if they do by the single spans, and those that have spans in it
/// are the same.
fn check_reduced_mesh(whole: Plant, single: Plant, number: &[usize], a: usize, b: usize) {
    let is_kept = |span: &usize| number.contains(span);
    let shared = literal::spans_of_shared_mesh(whole, a, b);
    let kept: Vec<usize> = shared.into_iter().filter(is_kept).collect();
    let of_single = literal::spans_of_shared_mesh(single, a, b);
    let of_single: Vec<usize> = of_single.into_iter().map(|span| number[span]).collect();
    assert_eq!(kept, of_single, "{:?} {a} {b}", whole.network);
}

/// By the rule of mates and, where spans from 02 are parallel, by the old rule, which has other mates then.
fn by_both(network: &Network, check: fn(&Network)) {
    check(network);
    let from_02: Vec<Span> = network.spans.iter().copied().filter(|span| span.duct == 0).collect();
    let parallel = |i: usize| from_02[..i].iter().any(|&span| span.lies_beside(from_02[i]));
    if (0..from_02.len()).any(parallel) {
        check(&network.clone().by(Rule::NoMate));
    }
}

/// The groups, the lists of 06 and 07 and the pairs of routes of spans from 02 by the old rule are those of
/// the network in which each span lies in the duct of its number and 1.
fn check_rewritten(network: &Network) {
    let laid = |(number, span): (usize, &Span)| Span { duct: number + 1, ..*span };
    let rewritten = network.spans.iter().enumerate().map(laid).collect();
    let (old, new) = (network.clone().by(Rule::NoMate), Network::new(network.cabinets, rewritten));
    let (old, new) = (Plant::of(&old), Plant::of(&new));
    let numbers: Vec<usize> = (0..network.spans.len()).collect();
    check_reduced_pairs(old, new, &numbers);
    for a in 0..network.cabinets {
        for b in (0..network.cabinets).filter(|&b| b != a) {
            let pairs = literal::pairs(old, a, b);
            assert_eq!(pairs, literal::pairs(new, a, b), "{network:?} {a} {b}");
        }
    }
    for &s in &numbers {
        for &t in &numbers {
            let mesh = literal::share_mesh(old, s, t);
            assert_eq!(mesh, literal::share_mesh(new, s, t), "{network:?} {s} {t}");
        }
    }
}

fn check(network: &Network) {
    by_both(network, check_by_rule);
    check_sums(Plant::without_mates(network));
}

fn check_by_rule(network: &Network) {
    check_groups(network);
    check_questions(network);
    check_sizes(network);
    check_names(network);
    check_exchanges(network);
    check_routes(network);
}

/// Every list of `count` spans from 02 between `cabinets` cabinets, each from less to greater.
fn every_list(cabinets: usize, count: usize, each: &mut dyn FnMut(&Network)) {
    layouts::every_list(&layouts::rising(cabinets), count, &mut |spans| {
        each(&Network::new(cabinets, spans));
    });
}

/// Every list of `count` spans between `cabinets` cabinets, each from 02 or in one of two ducts, with
/// directions by turns.
fn every_list_in_ducts(cabinets: usize, count: usize, each: &mut dyn FnMut(&Network)) {
    layouts::every_list_by_turns(cabinets, 2, count, &mut |spans| {
        each(&Network::new(cabinets, spans));
    });
}

/// The numbers of cabinets, with the greatest numbers of spans between them.
const SMALL_IN_DUCTS: [(usize, usize); 4] = [(2, 6), (3, 4), (4, 3), (5, 2)];
const REDUCED: [(usize, usize); 4] = [(2, 7), (3, 5), (4, 4), (5, 3)];

#[test]
fn every_small_network() {
    check(&Network::default());
    for count in 0..=6 {
        every_list(2, count, &mut check);
    }
    for count in 0..=5 {
        every_list(3, count, &mut check);
    }
    for count in 0..=5 {
        every_list(4, count, &mut check);
    }
    for count in 3..=4 {
        every_list(5, count, &mut check);
    }
}

#[test]
fn every_small_network_in_ducts() {
    for (cabinets, most) in SMALL_IN_DUCTS {
        (0..=most).for_each(|count| every_list_in_ducts(cabinets, count, &mut check));
    }
}

#[test]
fn every_small_network_reduced() {
    let mut reduced = |network: &Network| by_both(network, check_reduced);
    for (cabinets, most) in REDUCED {
        (0..=most).for_each(|count| every_list_in_ducts(cabinets, count, &mut reduced));
    }
}

/// Routes between up to four cabinets have at most three spans. The networks of four spans have them in
/// one order. By the old rule come those of up to three spans from 02 alone.
#[test]
fn every_pair_of_lists() {
    let mut lists = |network: &Network| match network.spans.iter().all(|span| span.duct == 0) {
        true => by_both(network, check_lists),
        false => check_lists(network),
    };
    for (cabinets, most) in [(2, 3), (3, 3), (4, 2)] {
        (0..=most).for_each(|count| every_list_in_ducts(cabinets, count, &mut lists));
    }
    every_list(4, 4, &mut |network| {
        if network.spans.is_sorted_by_key(|span| (span.a, span.b)) {
            check_lists(network);
        }
    });
}

/// So many random networks; of these every other one has spans in ducts.
fn some_networks(count: usize, seed: u64, each: &mut dyn FnMut(&Network)) {
    let mut random = Random::new(seed);
    for number in 0..count {
        let cabinets = random.between(2, 8);
        let spans = random.between(1, cabinets + 3);
        let mut layout = layouts::random_spans(&mut random, cabinets, spans);
        if number % 2 == 1 {
            let ducts = *random.pick(&DUCTS);
            let beside: Vec<Span> = layout
                .spans
                .iter()
                .filter(|_| random.chance(40))
                .map(|span| span.turned())
                .collect();
            layout.spans.extend(beside);
            layout.lay(&mut random, 80, ducts);
        }
        each(&Network::new(cabinets, layout.spans));
    }
}

#[test]
fn random_networks() {
    some_networks(4000, 1, &mut check);
    some_networks(4000, 2, &mut |network| by_both(network, check_reduced));
}

/// Every list of up to six spans from 02 between two cabinets, five between three, four between four and
/// three between five.
#[test]
fn every_small_network_rewritten() {
    for (cabinets, most) in [(2, 6), (3, 5), (4, 4), (5, 3)] {
        (0..=most).for_each(|count| every_list(cabinets, count, &mut check_rewritten));
    }
}

/// The length of each of three spans by these records.
fn check_lengths(records: &[Record]) {
    let surveys = Surveys::of(records);
    for span in 0..3 {
        let length = literal::length(records, span);
        assert_eq!(surveys.length(span), length, "{records:?} {span}");
    }
}

/// Every list of up to five records of two spans out of three, on one of three days each, every record
/// with other metres.
#[test]
fn every_list_of_records() {
    let choices = [[0, 0], [0, 1], [0, 2], [2, 0], [2, 1], [2, 2]];
    for count in 0..=5 {
        layouts::every_list(&choices, count, &mut |list| {
            let measured = list.into_iter().zip([4, 0, 65_535, 2, 256]);
            let records: Vec<Record> =
                measured.map(|([span, day], metres)| Record { span, day, metres }).collect();
            check_lengths(&records);
        });
    }
}

/// Records of different days give the same length however they are arranged: that of the latest day.
#[test]
fn every_arrangement_of_records() {
    let days = [0, 1, 255, 256, 32_767, 32_768, 65_535];
    for (count, &latest) in days.iter().enumerate() {
        let record = |&day: &usize| Record { span: 1, day, metres: (7 * day + 3) % 65_536 };
        let records: Vec<Record> = days[..=count].iter().map(record).collect();
        arrangements(&records, &mut |arranged| {
            check_lengths(arranged);
            let length = literal::length(arranged, 1);
            assert_eq!(length, Some(record(&latest).metres), "{arranged:?}");
        });
    }
}

/// However the records of a span are put in among those of others, its length is that by its own records
/// in their order; and of the records of one day only the first has a part in it.
#[test]
fn random_records() {
    let mut random = Random::new(3);
    for _ in 0..20_000 {
        let days = random.between(1, 4);
        let mut records = Vec::new();
        for _ in 0..random.below(12) {
            let [span, day, metres] = [random.below(3), random.below(days), random.below(9)];
            records.push(Record { span, day, metres });
        }
        check_lengths(&records);
        for span in 0..3 {
            let mut own: Vec<Record> = records.clone();
            own.retain(|record| record.span == span);
            assert_eq!(literal::length(&own, span), literal::length(&records, span), "{records:?}");
            let is_first = |i: &usize| own[..*i].iter().all(|record| record.day != own[*i].day);
            let firsts: Vec<Record> = (0..own.len()).filter(is_first).map(|i| own[i]).collect();
            assert_eq!(literal::length(&firsts, span), literal::length(&own, span), "{records:?}");
        }
    }
}

/// Every part of so many cabinets, whose shares are exact halves often, seldom or never, the least number of
/// cabinets and the greatest among them.
fn every_part(each: &mut dyn FnMut(usize, usize)) {
    let more = [125, 128, 160, 240, 400, 1000, 2000, 4000, 4095, 4096];
    for whole in (0..=100).chain(more) {
        (0..=whole).for_each(|part| each(part, whole));
    }
}

/// The share that is computed is the nearest one by the definition.
#[test]
fn shares_are_nearest() {
    every_part(&mut |part, whole| {
        let share = literal::nearest_share(part, whole);
        assert_eq!(thousandths(part, whole), share, "{part} of {whole}");
    });
}

/// Of the numbers up to 2,000, and of the greatest that two bytes can hold, a planner accepts the nearest share
/// alone.
#[test]
fn no_other_share_is_accepted() {
    every_part(&mut |part, whole| {
        let share = literal::nearest_share(part, whole);
        for other in (0..=2000).chain([65_534, 65_535]) {
            assert_eq!(is_share(other, part, whole), other == share, "{other}: {part} of {whole}");
        }
    });
}

/// Every part of every number of cabinets: both implementations tell one share, which a planner accepts.
#[test]
fn every_share_is_accepted() {
    for whole in 0..=MOST_CABINETS as usize {
        for part in 0..=whole {
            let share = thousandths(part, whole);
            assert!(is_share(share, part, whole), "{share}: {part} of {whole}");
            let other = incremental::thousandths(part as u32, whole as u32);
            assert_eq!(other as usize, share, "{part} of {whole}");
        }
    }
}
