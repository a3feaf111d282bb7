use ffn::{request, write_request, Figures, FunctionalNumber, Msisdn};
use ffn::{Operation, Request, CODING_SCHEME};
use std::error::Error;

fn main() -> Result<(), Box<dyn Error>> {
    let number: FunctionalNumber = "0492123401".parse()?;
    let driver: Msisdn = "4915100001".parse()?;
    let table = &mut [number.word(), 0, 0, 0, 0, 0, 0];
    let figures = &mut Figures::recount(table)?; // once, at the start
    let list = [driver.word(), 1];
    let (string, reply) = (&mut [0; 160], &mut [0; 80]);
    let fields = Request {
        operation: Operation::Register,
        number,
        forced: None,
        additional: b"",
    };
    let count = write_request(&fields, string)?;
    let string = &string[..count];
    let done = request(table, figures, &list, reply, driver, CODING_SCHEME, string)?;
    println!("outcome {:02}, held by {}", done.outcome.number(), table[1]);
    Ok(())
}
