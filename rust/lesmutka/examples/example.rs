//! Plans 43 by the non-adjacent form, prints the plan, checks it, takes the digits one by one, and
//! shows a refusal.
//!
//! ```text
//! ./lesmutka --build
//! cargo run --manifest-path rust/Cargo.toml -p lesmutka --example example
//! ```
use lesmutka::{check, digits, plan, work_space, Method, Refusal, PLAN_ROOM, PLAN_STEPS, STEP_BYTES};

fn main() -> Result<(), Refusal> {
    let number = [43];
    let mut room = [0; PLAN_ROOM];
    let mut space = [0; work_space(PLAN_STEPS)];

    let plan = plan(&number, Method::Naf, &mut room)?;
    println!("plan: {} steps", plan.steps().len());
    for step in plan.steps() {
        println!("  {}", step);
    }

    println!("accepted: {}", check(&number, plan.bytes, &mut space)?);

    print!("digits, lowest first:");
    for digit in digits(&number)? {
        print!(" {}", digit);
    }
    println!();

    // The last step turned into an addition: the plan ends elsewhere.
    let mut damaged = plan.bytes.to_vec();
    let last = damaged.len() - STEP_BYTES;
    damaged[last] = 0;
    if let Err(refusal) = check(&number, &damaged, &mut space) {
        println!("{}", refusal);
    }
    Ok(())
}
