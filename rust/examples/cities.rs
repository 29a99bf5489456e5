//! One thread sets values on a seat. When it has ended, another one goes on with that seat: it looks a key up, and walks the pairs in order.
use bwtree::Tree;

fn main() -> Result<(), Box<dyn std::error::Error>> {
    let tree = Tree::for_keys(2, 100)?;
    let mut seat = tree.seat().expect("a seat is free");
    std::thread::scope(|scope| {
        let setting = scope.spawn(|| {
            for (city, country) in [("Bern", "Switzerland"), ("Vienna", "Austria"), ("Paris", "France"), ("Oslo", "Norway")] {
                seat.upsert(city.as_bytes(), country.as_bytes())?;
            }
            Ok::<(), bwtree::Error>(())
        });
        setting.join().expect("it does not panic")
    })?;

    if let Some(value) = seat.get(b"Bern")? {
        println!("Bern: {}", String::from_utf8(value)?);
    }
    for pair in seat.pairs_from(b"") {
        let (key, value) = pair?;
        println!("{}, {}", String::from_utf8(key)?, String::from_utf8(value)?);
    }
    Ok(())
}
