//! Opening a broker, its name, and the version.
use crate::shared::*;
use gubzelk::{Broker, Error, Limits, Table, TableReason};

#[test]
fn version_is_the_crates() {
    let numbers: Vec<u32> = env!("CARGO_PKG_VERSION").split('.').map(|it| it.parse().unwrap()).collect();
    assert_eq!(gubzelk::version(), numbers[0] * 1_000_000 + numbers[1] * 1000 + numbers[2]);
}

#[test]
fn names_differ() {
    let (one, two) = (opened(), opened());
    assert_ne!(one.name(), two.name());
    assert!(one.name().len() == 32 && one.name().bytes().all(|byte| byte.is_ascii_hexdigit()));
    assert!(format!("{one:?}").contains(one.name()));
}

#[test]
fn a_broker_without_tables() {
    let mut broker = Broker::open(&Limits::default(), &[]).unwrap();
    let publisher = broker.publisher().unwrap();
    assert_eq!(broker.place(publisher, &insert(1, 1)), Err(Error::UnknownTable { section: 0 }));
    assert_eq!(broker.place(publisher, b""), Ok(1));
}

#[test]
fn each_limit_has_a_range() {
    let greatest = [256, 64, 1_000_000_000, 16_777_216, 4096, 16];
    for (place, greatest) in greatest.into_iter().enumerate() {
        for (number, fits) in [(0, false), (1, true), (greatest, true), (greatest + 1, false), (u64::MAX, false)] {
            let mut limits = Limits::default();
            let fields = [
                &mut limits.batch,
                &mut limits.window,
                &mut limits.timeout,
                &mut limits.capacity,
                &mut limits.intake,
                &mut limits.appliers,
            ];
            *fields.into_iter().nth(place).unwrap() = number;
            let found = Broker::open(&limits, &TABLES).map(drop);
            let wanted = if fits { Ok(()) } else { Err(Error::BadLimit { place: place as u64 }) };
            assert_eq!(found, wanted, "limit {place} is {number}");
        }
    }
}

#[test]
fn bad_tables() {
    let open = |tables: &[Table]| Broker::open(&Limits::default(), tables).map(drop);
    let shape = |place| Err(Error::BadTable { place, reason: TableReason::Shape });
    let long = vec![b'x'; 1025];
    for table in [
        Table::new("", &[1]),
        Table::new("a\0b", &[1]),
        Table::new(&long, &[1]),
        Table::new("t", &[]),
        Table::new("t", &[0]),
        Table::new("t", &[0; 2001]),
    ] {
        assert_eq!(open(&[table]), shape(0), "{table:?}");
        assert_eq!(open(&[TABLES[1], table]), shape(1), "{table:?}");
    }
    assert_eq!(open(&[Table::new(&long[..1024], &[1])]), Ok(()));
    let repeated = Err(Error::BadTable { place: 1, reason: TableReason::Repeated });
    assert_eq!(open(&[TABLES[0], Table::new("t", &[1])]), repeated);
    // the name comes before the shape
    assert_eq!(open(&[TABLES[0], Table::new("t", &[0])]), repeated);
}

#[test]
fn at_most_1024_tables() {
    let names: Vec<String> = (0..1025).map(|number| format!("t{number}")).collect();
    let tables: Vec<Table> = names.iter().map(|name| Table::new(name, &[1])).collect();
    assert!(Broker::open(&Limits::default(), &tables[..1024]).is_ok());
    let found = Broker::open(&Limits::default(), &tables).map(drop);
    assert_eq!(found, Err(Error::BadTable { place: 1024, reason: TableReason::Shape }));
}
