//! A publish and a count: rows 1, 2 and 3 stand under key 5, and row 1 comes to key 6.
//!
//! Run it with `cargo run --release -p asdrifen --example publish_and_count`.

use asdrifen::{Change, Guard, Index, Posting, Refused};

fn main() -> Result<(), Refused> {
    // Two bindings, room for four postings.
    let mut index = Index::new(2, 4)?;
    let held = [Guard::new(0, 5), Guard::new(0, 6)];
    let member = |row| Posting {
        binding: 0,
        key: 5,
        row,
    };
    index.publish(&[1, 2, 3].map(member).map(Change::added), &held)?;

    let record = index.publish(&[Change::moved(member(1), 6)], &held)?;
    println!("record {record:?}");
    println!("under key 5: {}", index.count(0, 5)?);
    println!("table {:?}", index.table());

    // Row 2 is under key 5 already. A refusal changes nothing, and says what to do.
    match index.publish(&[Change::added(member(2))], &held) {
        Ok(record) => println!("record {record:?}"),
        Err(refused) => println!("{refused}"),
    }

    // A drill: storage fails as row 2 is taken away. From then on no count is given.
    let removed = [Change::removed(member(2))];
    if let Err(refused) = index.with_strip(&[1]).publish(&removed, &held) {
        println!("{refused}");
    }
    if let Err(refused) = index.count(0, 5) {
        println!("{refused}");
    }
    Ok(())
}
