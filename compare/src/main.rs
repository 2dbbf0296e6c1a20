//! Runs the original and this library on random maps, and on copies renamed and reordered, and compares repaired tables,
//! warnings, lists and gap rows; then faulty tables; then sequences of reversals; then attribute reading; then lookups of
//! lists and names, roots and distances.
use compare::both::{self, Found};
use compare::tables::{Dice, Tables, CONNECTION, LANE};
use compare::{damage, lookups, maps, measures, places, readings, renamed, turned};

/// How much the maps gave to compare.
#[derive(Default)]
struct Seen {
    warnings: usize,
    added: usize,
    successors: usize,
    two_way: usize,
    gaps: usize,
    places: places::Count,
}

impl Seen {
    fn add(&mut self, t: &Tables, found: &Found) {
        self.warnings += found.repaired.warnings.len();
        self.added += Tables::rows(&found.tables.connections, CONNECTION) - Tables::rows(&t.connections, CONNECTION);
        self.successors += found.lists.successors.iter().map(Vec::len).sum::<usize>();
        self.two_way += t.lanes.chunks(LANE).zip(&found.lists.successors).filter(|(l, s)| l[5] == 2 && !s.is_empty()).count();
        self.gaps += found.gaps.len();
        found.wide.iter().for_each(|w| self.places.add(w));
    }
}

/// All that was counted.
#[derive(Default)]
struct Counts {
    seen: Seen,
    tally: damage::Tally,
    turned: turned::Count,
    renamed: renamed::Count,
    readings: readings::Count,
    lookups: lookups::Count,
    measures: measures::Count,
}

impl Counts {
    fn print(&self) {
        let seen = &self.seen;
        println!(
            "  beside the original: {} warnings, {} connections added, {} successors, {} two-way lanes with successors, {} gap rows",
            seen.warnings, seen.added, seen.successors, seen.two_way, seen.gaps
        );
        seen.places.print();
        println!("  damaged tables:");
        self.tally.print();
        self.turned.print();
        self.renamed.print();
        self.readings.print();
        self.lookups.print();
        self.measures.print();
    }
}

fn main() {
    let mut args = std::env::args().skip(1);
    let n: u64 = args.next().and_then(|a| a.parse().ok()).unwrap_or(1000);
    let seed: u64 = args.next().and_then(|a| a.parse().ok()).unwrap_or(1);
    // the other dice are for what came later, so that a seed's maps stay the same
    let (mut dice, mut others, mut slopes, mut attributes) = (Dice::new(seed), Dice::new(!seed), Dice::new(seed.swap_bytes()), Dice::new(!seed.swap_bytes()));
    let mut orders = Dice::new(seed.reverse_bits());
    let (mut counts, mut wrong) = (Counts::default(), 0);
    let mut say = |k: &str, r: Result<(), String>| {
        if let Err(e) = r {
            wrong += 1;
            if wrong <= 5 {
                println!("{k}: {e}");
            }
        }
    };
    say("limits", damage::limits());
    say("exponents", measures::exponents(&mut counts.measures));
    for k in 0..n {
        let mut t = maps::random(&mut dice);
        maps::on_a_grid(&mut t, &mut others);
        maps::on_a_slope(&mut t, &mut slopes);
        let found = both::find(&t);
        match &found {
            Ok(found) => {
                counts.seen.add(&t, found);
                say(&format!("map {k}"), lookups::run(&found.tables, &found.lists, &mut others, &mut counts.lookups));
                say(&format!("map {k} renamed"), renamed::run(&t, found, &mut orders, &mut counts.renamed));
            }
            Err(e) => say(&format!("map {k}"), Err(e.clone())),
        }
        say(&format!("map {k} damaged"), damage::run(&t, &mut dice, &mut counts.tally));
        say(&format!("map {k} reversed"), turned::run(&t, &found, &mut dice, &mut counts.turned));
        say(&format!("raw tables {k}"), readings::run(&mut attributes, &mut counts.tally, &mut counts.readings));
        say(&format!("measures {k}"), measures::run(&mut others, &mut counts.measures));
    }
    println!("{n} maps, seed {seed}");
    counts.print();
    let missing = counts.tally.missing();
    if !missing.is_empty() {
        println!("  answers that no table brought about: {missing:?}");
    }
    println!("{wrong} disagreements");
    std::process::exit(i32::from(wrong > 0 || (n >= 2000 && !(missing.is_empty() && counts.readings.all_seen()))));
}
