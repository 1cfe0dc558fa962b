//! The global `ports` of //app:main.star, in Rust with `serde_json`.
use std::process::Command;

fn main() -> Result<(), Box<dyn std::error::Error>> {
    let run = Command::new("starload")
        .args(["--with", "values", "--dir", ".", "//app:main.star"])
        .output()?;
    let report: serde_json::Value = serde_json::from_slice(&run.stdout)?;
    let modules = report["modules"].as_array().into_iter().flatten();
    for module in modules.filter(|m| m["label"] == "//app:main.star") {
        println!("{}", module["values"]["ports"]);
    }
    Ok(())
}
