//! That the comparison can fail: a model with a slip planted in it is found out.

use image::Reading;
use images::compare::tell;
use images::damage::damaged;
use images::query::Query;
use images::random::Random;
use images::slips::Slip;
use images::states::random_state;

const DAMAGES: usize = 500_000;
const LOOKS: usize = 500_000;

#[test]
fn bites() {
    let mut random = Random::for_test("bites", 6);
    let mut hidden = Slip::all();
    for damage in 1..=DAMAGES {
        let state = random_state(&mut random);
        let octets = damaged(&state, &mut random);
        let Some(reading) = Reading::of(&octets) else {
            continue;
        };
        let library = Query::random(&state, &mut random).library(&octets) != 0;
        let (found, still_hidden): (Vec<Slip>, _) =
            hidden.into_iter().partition(|slip| slip.takes(&reading) != library);
        hidden = still_hidden;
        for slip in found {
            tell(&format!("bites: a model {} is found at damage {damage}", slip.name()));
        }
        if hidden.is_empty() {
            return;
        }
    }
    let names: Vec<String> = hidden.iter().map(Slip::name).collect();
    panic!("not found: {names:?}");
}

/// What a careless look does to a query, by its name.
type Cut = (&'static str, fn(&mut Query));

/// The same of looks, which could take one query for another.
#[test]
fn bites_on_looks() {
    let cuts: [Cut; 4] = [
        ("three bits of the level", |query| query.level &= 7),
        ("twelve bits of the VID", |query| query.vid &= 0xFFF),
        ("three bits of the port", |query| query.port &= 7),
        ("two bits of the kind", |query| query.kind &= 3),
    ];
    let mut random = Random::for_test("bites on looks", 7);
    for (name, cut) in cuts {
        let is_found = (0..LOOKS).any(|_| {
            let state = random_state(&mut random);
            let query = Query::random(&state, &mut random);
            let mut careless = query;
            cut(&mut careless);
            query.library(&state.image()) != careless.model(Some(&state))
        });
        assert!(is_found, "a look that goes by {name} alone is not found");
    }
}
