//! cargo run --example hello, in embed/rust/starload
fn main() -> Result<(), starload::Refused> {
    let bundle = br#"{"//:hello.star": "print('Hello')\nx = 1 + 2\n"}"#;
    let report = starload::load(bundle, &["//:hello.star"], &starload::Options::default())?;
    print!("{}", String::from_utf8_lossy(&report.json));
    Ok(())
}
