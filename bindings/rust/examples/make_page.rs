//! Writes a page to standard output, for the program `sheet` to print:
//!
//!     cargo run --example make_page | ../../target/bin/sheet

use sandzguli::page::{BinModifier, Cardinality, Code, LabelModifier, Matcher};
use sandzguli::page::{Page, Record, UnknownFunction};
use std::error::Error;
use std::io::{stdout, Write};
use std::process::ExitCode;

const MINUTE: u64 = 60_000;

/// Requests a second with these status codes, by service.
fn requests(pattern: &str) -> Result<[Record; 4], UnknownFunction> {
    let matchers = [
        Matcher::equal("job", "api"),
        Matcher::re("code", pattern, false),
    ];
    Ok([
        Record::selector("http_requests_total", matchers),
        Record::Range(5 * MINUTE),
        Record::call_known("rate", 1)?,
        Record::aggregate(Code::Sum, LabelModifier::by(["service"]), 1),
    ])
}

/// The share of failed requests of each service, with the service's owner.
fn failures() -> Result<Page, UnknownFunction> {
    let matching = BinModifier {
        matching: LabelModifier::on(["service"]),
        cardinality: Cardinality::group_left(["owner"]),
        ..BinModifier::default()
    };
    let mut records = requests("5..")?.to_vec();
    records.extend(requests("[1-5]..")?);
    records.push(Record::binary(Code::Div));
    records.push(Record::Paren);
    records.push(Record::selector("service_info", []));
    records.push(Record::binary_with(Code::Mul, matching));
    Ok(Page::from(records))
}

fn write_page() -> Result<(), Box<dyn Error>> {
    let page = failures()?.to_bytes();
    sandzguli::check_table(&page)?;
    stdout().write_all(&page)?;
    Ok(())
}

fn main() -> ExitCode {
    if let Err(error) = write_page() {
        eprintln!("{error}");
        return ExitCode::FAILURE;
    }
    ExitCode::SUCCESS
}
