//! The account of a station.

use super::support::random_plan;
use crate::account::{account_text, text_with, AccountPair};
use crate::answer::number;
use crate::cases::{plan_bytes, Record, PLAN_A};
use crate::load_program::{accepted_plan, load_text};
use crate::means::{COUNTED, LISTED};
use crate::random::Random;

/// The account of a station of plan A.
fn plan_a(turnaround: usize, station: usize, number: usize) -> String {
    account_text(turnaround, &plan_bytes(&PLAN_A), station, number)
}

/// P4, P5 and P9: the walks 0 to 4, of which station 3 has all inside, and its 4 pairs.
#[test]
fn station_3_of_plan_a() {
    let whole = "station 3 pairs 4 load 17179869184\n\
                 from 0 to 4 hops 3 through 3 count 3 share 4294967296\n\
                 \x20 1 0 1, 2 1 3, 4 3 4\n\
                 \x20 1 0 2, 2 2 3, 4 3 4\n\
                 \x20 1 0 2, 3 2 3, 4 3 4\n\
                 \x20 more 0\n\
                 from 1 to 2 hops 2 through 1 count 1 share 4294967296\n\
                 \x20 2 1 3, 3 3 2\n\
                 \x20 more 0\n\
                 from 1 to 4 hops 2 through 1 count 1 share 4294967296\n\
                 \x20 2 1 3, 4 3 4\n\
                 \x20 more 0\n\
                 from 2 to 4 hops 2 through 2 count 2 share 4294967296\n\
                 \x20 2 2 3, 4 3 4\n\
                 \x20 3 2 3, 4 3 4\n\
                 \x20 more 0\n";
    for number in 3..=8 {
        assert_eq!(plan_a(1, 3, number), whole);
    }
}

/// P2, P5 and P9: one walk of three from 0 to 3 and from 0 to 4.
#[test]
fn station_1_of_plan_a() {
    let whole = "station 1 pairs 2 load 2863311530\n\
                 from 0 to 3 hops 2 through 1 count 3 share 1431655765\n\
                 \x20 1 0 1, 2 1 3\n\
                 \x20 more 0\n\
                 from 0 to 4 hops 3 through 1 count 3 share 1431655765\n\
                 \x20 1 0 1, 2 1 3, 4 3 4\n\
                 \x20 more 0\n";
    assert_eq!(plan_a(1, 1, 8), whole);
    assert_eq!(plan_a(1, 1, 1), whole);
}

/// P2, P5 and P9: two walks of three, shown up to the number.
#[test]
fn station_2_of_plan_a_with_every_number() {
    let text = |walks: [&str; 2]| {
        let [to_3, to_4] = walks;
        format!(
            "station 2 pairs 2 load 5726623060\n\
             from 0 to 3 hops 2 through 2 count 3 share 2863311530\n{to_3}\
             from 0 to 4 hops 3 through 2 count 3 share 2863311530\n{to_4}"
        )
    };
    assert_eq!(plan_a(1, 2, 0), text(["  more 2\n"; 2]));
    let one = [
        "  1 0 2, 2 2 3\n  more 1\n",
        "  1 0 2, 2 2 3, 4 3 4\n  more 1\n",
    ];
    assert_eq!(plan_a(1, 2, 1), text(one));
    let both = [
        "  1 0 2, 2 2 3\n  1 0 2, 3 2 3\n  more 0\n",
        "  1 0 2, 2 2 3, 4 3 4\n  1 0 2, 3 2 3, 4 3 4\n  more 0\n",
    ];
    for number in 2..=8 {
        assert_eq!(plan_a(1, 2, number), text(both));
    }
}

/// With g = 2 the walks of three legs are gone: 0 to 3 goes out in slot 1 and 3 by station 2 alone.
#[test]
fn plan_a_with_turnaround_2() {
    let station_2 = "station 2 pairs 1 load 4294967296\n\
                     from 0 to 3 hops 2 through 1 count 1 share 4294967296\n\
                     \x20 1 0 2, 3 2 3\n\
                     \x20 more 0\n";
    assert_eq!(plan_a(2, 2, 8), station_2);
    let station_3 = "station 3 pairs 2 load 8589934592\n\
                     from 1 to 4 hops 2 through 1 count 1 share 4294967296\n\
                     \x20 2 1 3, 4 3 4\n\
                     \x20 more 0\n\
                     from 2 to 4 hops 2 through 1 count 1 share 4294967296\n\
                     \x20 2 2 3, 4 3 4\n\
                     \x20 more 0\n";
    assert_eq!(plan_a(2, 3, 1), station_3);
}

/// Stations without pairs have one line; P1 and P10 have no other.
#[test]
fn stations_without_pairs() {
    for (turnaround, station) in [(1, 0), (1, 4), (2, 0), (2, 1), (2, 4), (3, 3), (16, 2)] {
        let line = format!("station {station} pairs 0 load 0\n");
        assert_eq!(plan_a(turnaround, station, 8), line);
    }
    assert_eq!(account_text(1, &[], 0, 8), "station 0 pairs 0 load 0\n");
    let p10 = plan_bytes(&[(1, 0, 1), (1, 1, 2)]);
    assert_eq!(account_text(1, &p10, 1, 8), "station 1 pairs 0 load 0\n");
}

/// Each cause with all that come behind it: 2, 1, 3, 4, 5, 12, 6.
#[test]
fn causes_come_in_order() {
    let text = |turnaround: usize, bytes: &[u8]| account_text(turnaround, bytes, 65536, 8);
    assert_eq!(text(17, &[255; 7]), "refused 2\n");
    assert_eq!(text(17, &[255; 6 * 1025]), "refused 2\n");
    let cases: [(&[Record], u8); 5] = [
        (&[(0, 1, 1), (1, 0, 32)], 1),
        (&[(0, 1, 1), (1, 0, 1)], 3),
        (&[(1, 1, 1), (1, 0, 1)], 4),
        (&[(1, 0, 1), (1, 0, 1)], 5),
        (&[(1, 0, 1), (1, 1, 0)], 12),
    ];
    for (records, number) in cases {
        let bytes = plan_bytes(records);
        assert_eq!(text(17, &bytes), format!("refused {number}\n"));
        let behind_12 = if number == 12 { 6 } else { number };
        assert_eq!(text(2, &bytes), format!("refused {behind_12}\n"));
    }
    assert_eq!(plan_a(1, 5, 0), "refused 6\n");
    assert_eq!(plan_a(1, usize::MAX, 0), "refused 6\n");
}

/// With a smaller largest count every station has 9 where loads have it, and 6 is before it.
#[test]
fn nine_is_that_of_any_source() {
    let mut refused = 0;
    let mut random = Random::new(13);
    for _ in 0..300 {
        let owned = random_plan(&mut random);
        let plan = owned.plan();
        for limit in [1, 2, 4] {
            let loads = number(&owned.loads(limit));
            refused += usize::from(loads == 9);
            for means in [LISTED.within(limit), COUNTED.within(limit)] {
                let asked = |station: usize| number(&means.account(&plan, station));
                assert!((0..plan.stations).all(|station| asked(station) == loads));
                assert_eq!(asked(plan.stations), 6);
            }
        }
    }
    assert!((200..700).contains(&refused), "{refused}");
}

/// Each pair has as many lines of walks as the number allows, the same ones first, and `more` counts the rest.
#[test]
fn every_number_shows_a_beginning() {
    let mut random = Random::new(15);
    for _ in 0..200 {
        let owned = random_plan(&mut random);
        let plan = owned.plan();
        for station in 0..plan.stations {
            let account = LISTED.account(&plan, station);
            let texts: Vec<String> = (0..=8).map(|number| text_with(&account, number)).collect();
            let pairs = account.unwrap().pairs;
            for (number, text) in texts.iter().enumerate() {
                let lines = text.lines().count();
                let shown = pairs.iter().map(|pair| pair.walks.len().min(number));
                assert_eq!(lines, 1 + 2 * pairs.len() + shown.sum::<usize>());
                let ends = text.lines().filter_map(|line| line.strip_prefix("  more "));
                let ends: Vec<u64> = ends.map(|more| more.parse().unwrap()).collect();
                let rest = |pair: &AccountPair| pair.through.saturating_sub(number as u64);
                assert_eq!(ends, pairs.iter().map(rest).collect::<Vec<u64>>());
                let whole: Vec<&str> = texts[8].lines().collect();
                let is_more = |line: &&str| line.starts_with("  more ");
                assert!(text
                    .lines()
                    .filter(|line| !is_more(line))
                    .all(|line| whole.contains(&line)));
            }
        }
    }
}

/// The first line is the station's line of the load programs.
#[test]
fn the_first_line_has_the_printed_load() {
    let mut random = Random::new(16);
    for _ in 0..200 {
        let bytes = random_plan(&mut random).bytes;
        for turnaround in [1, 2, 3, 16] {
            let loads = load_text(turnaround, &bytes);
            for (station, line) in loads.lines().skip(1).enumerate() {
                let text = account_text(turnaround, &bytes, station, 0);
                let first = text.lines().next().unwrap();
                let words: Vec<&str> = first.split(' ').collect();
                assert_eq!([words[0], words[2], words[4]], ["station", "pairs", "load"]);
                assert_eq!([words[1], words[3], words[5]].join(" "), line);
            }
            let behind = accepted_plan(turnaround, &bytes).unwrap().stations;
            assert_eq!(account_text(turnaround, &bytes, behind, 0), "refused 6\n");
        }
    }
}
