//! calls N: N calls. For bench/embedding.
fn main() -> Result<(), starload::Refused> {
    let calls: u32 = std::env::args().nth(1).and_then(|it| it.parse().ok()).unwrap_or(100_000);
    let bundle = br#"{"//:hello.star": "print('Hello')\nx = 1 + 2\n"}"#;
    let options = starload::Options::default();
    for _ in 0..calls {
        assert!(starload::load(bundle, &["//:hello.star"], &options)?.ok);
    }
    Ok(())
}
