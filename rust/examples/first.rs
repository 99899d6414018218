use umbraconga::{calculate, Refused, Table};

fn main() -> Result<(), Refused> {
    let records = b"\x01\0\0\0\0\x0a\x02\0\0\0\0\x64\0\0\0\0\x01\0\xff\xff\xff\xff\xff\xff\xff";
    println!("{}", calculate(records)?);
    let mut table = Table::empty();
    table.run(records).refused.map_or(Ok(()), Err)?;
    while table.run(&[5, 0, 0]).refused.is_none() {}
    println!("settled: {}, told: {}", table.settled()?, table.told(0));
    Ok(())
}
