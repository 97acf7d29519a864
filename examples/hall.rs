//! Document 01's hall, call by call: prints its log. Run it in rust/ with `cargo run --example hall`.
use lembuya::{Cascade, Plan, Refused};

const PLAN: &[u8] = b"(frame 100000)\n(overhead 1000)\n(interrupt 13000)\n(strict)\n\
                      (hub\n(node)\n(hub\n(node)\n(node)\n)\n(node)\n)\n";

fn main() -> Result<(), Box<dyn std::error::Error>> {
    let plan = Plan::read(PLAN)?;
    println!("{plan}");
    let mut hub = plan.cascade();
    hub.reserve(0, 3, 2, 4_000)?;
    hub.normal(0, 1, 12_000)?;
    hub.normal(0, 4, 6_000)?;
    if let Err(refused) = hub.high(0, 3, 4_000) {
        println!("{}", refused.at(plan.events().line + 3));
    }
    run(&mut hub, 99_000)?;
    hub.normal(99_000, 2, 12_000)?;
    run(&mut hub, 100_000)?;
    hub.high(100_000, 3, 4_000)?;
    hub.normal(100_000, 1, 1_000)?;
    run(&mut hub, 200_000)?;
    hub.until(200_000)?;
    Ok(())
}

/// Makes and prints all steps strictly before `t`.
fn run(hub: &mut Cascade, t: u64) -> Result<(), Refused> {
    for step in hub.steps_before(t) {
        println!("{}", step?);
    }
    Ok(())
}
