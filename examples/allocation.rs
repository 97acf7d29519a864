//! Source document 000's allocation limit: for each packet size, how much the hub grants before it says 17.
//!
//!     cargo run --example allocation                  # the table
//!     cargo run --example allocation -- --text 512    # the plan and the reserves for packets of 512 bytes
//!     cargo run --example allocation -- --plot        # the table as SVG

use lembuya::{Plan, Refused};

/// Section 6 of 000 has T = 20 ms, D_pp = 10.109 us and D_it = 261.92 us; a bit time is 10 ns.
const PLAN: &str = "(frame 2000000)\n(overhead 1011)\n(interrupt 26192)\n";
const FRAME: f64 = 2_000_000.0;
const NODES: u64 = 32;

/// Packet sizes in bytes.
const SIZES: [u64; 12] = [
    64, 128, 192, 256, 384, 512, 640, 768, 896, 1_024, 1_280, 1_500,
];

/// What 000 prints, in Mbit/s: at 64 bytes (section 3.1, "about"), at 512 (section 6.1, "about") and at 1,500 (section 6.4).
const PRINTED: [(u64, f64); 3] = [(64, 35.0), (512, 79.0), (1_500, 91.02)];

fn main() -> Result<(), Box<dyn std::error::Error>> {
    let words: Vec<String> = std::env::args().skip(1).collect();
    match words.iter().map(String::as_str).collect::<Vec<_>>()[..] {
        [] => print!("{}", table()?),
        ["--plot"] => print!("{}", plot()?),
        ["--text", size] => print!("{}", allocate(size.parse()?)?.0),
        _ => return Err("allocation takes --text SIZE, or --plot, or nothing".into()),
    }
    Ok(())
}

/// Reserves packets of a size node by node until the hub says 17: the text of it, and how many packets it granted.
///
/// A node may have up to 64. The first that can't have so many is given one after the other.
fn allocate(size: u64) -> Result<(String, u64), Box<dyn std::error::Error>> {
    let plan = format!("{PLAN}(hub\n{})\n", "(node)\n".repeat(NODES as usize));
    let (mut hub, mut text, mut granted) = (Plan::read(plan.as_bytes())?.cascade(), plan, 0);
    let bits = 8 * size;
    let mut reserve = |node, packets| {
        text += &format!("(reserve 0 {node} {packets} {bits})\n");
        hub.reserve(0, node, packets, bits)
    };
    for node in 1..=NODES {
        match reserve(node, 64) {
            Ok(()) => granted += 64,
            Err(Refused::Full) => {
                let mut packets = 1;
                while reserve(node, packets).is_ok() {
                    packets += 1;
                }
                return Ok((text, granted + packets - 1));
            }
            Err(other) => return Err(other.into()),
        }
    }
    Err("the nodes are too few to fill the frame".into())
}

/// Mbit/s of so many packets of a size in a frame: a bit in a bit time is 100 Mbit/s.
fn rate(size: u64, packets: u64) -> f64 {
    (packets * 8 * size) as f64 / FRAME * 100.0
}

fn table() -> Result<String, Box<dyn std::error::Error>> {
    let mut table = "bytes  packets  granted Mbit/s  printed in 000\n".to_string();
    for size in SIZES {
        let (_, packets) = allocate(size)?;
        let printed = PRINTED.iter().find(|(printed, _)| *printed == size);
        let printed = printed.map_or(String::new(), |(_, rate)| rate.to_string());
        let line = format!(
            "{size:>5} {packets:>8} {:>15.2}  {printed:>14}",
            rate(size, packets)
        );
        table += line.trim_end();
        table.push('\n');
    }
    Ok(table)
}

/// Where a packet size and a rate stand in the plot.
fn place(size: u64, rate: f64) -> (f64, f64) {
    (60.0 + size as f64 * 0.4, 340.0 - rate * 3.0)
}

/// Mbit/s over the packet size: a point for each size, a ring for each printed figure.
fn plot() -> Result<String, Box<dyn std::error::Error>> {
    let (mut line, mut marks) = (String::new(), axes());
    for size in SIZES {
        let rate = rate(size, allocate(size)?.1);
        let (x, y) = place(size, rate);
        line += &format!("{}{x:.1} {y:.1}", if line.is_empty() { 'M' } else { 'L' });
        marks += &circle(
            "own",
            4,
            (x, y),
            &format!("{size} bytes: {rate:.2} Mbit/s granted"),
        );
    }
    for (size, rate) in PRINTED {
        marks += &circle(
            "printed",
            8,
            place(size, rate),
            &format!("000 prints {rate} at {size} bytes"),
        );
    }
    Ok(format!(
        "<svg xmlns=\"http://www.w3.org/2000/svg\" width=\"700\" height=\"390\" viewBox=\"0 0 700 390\">\n\
         <title>What the hub grants before it says 17</title>\n<style>\n{STYLE}</style>\n\
         <rect width=\"700\" height=\"390\" fill=\"#fff\"/>\n\
         <text class=\"head\" x=\"60\" y=\"20\">What the hub grants before it says 17, in Mbit/s</text>\n\
         {marks}<path class=\"line\" d=\"{line}\"/>\n\
         <text class=\"mid\" x=\"365\" y=\"378\">packet size in bytes; rings: what source document 000 prints</text>\n</svg>\n"
    ))
}

const STYLE: &str = "\
text{font-family:sans-serif;font-size:12px;fill:#222}.left{text-anchor:end}.mid{text-anchor:middle}
.head{font-size:15px;font-weight:bold}.grid{stroke:#ddd}.line{fill:none;stroke:#0072b2}
.own{fill:#0072b2}.printed{fill:none;stroke:#e69f00;stroke-width:2.5}
";

/// Lines for each 20 Mbit/s, and the sizes below.
fn axes() -> String {
    let mut axes = String::new();
    for rate in (0..=100).step_by(20) {
        let (_, y) = place(0, rate.into());
        let text = y + 4.0;
        axes += &format!(
            "<path class=\"grid\" d=\"M60 {y}H670\"/><text class=\"left\" x=\"54\" y=\"{text}\">{rate}</text>\n"
        );
    }
    for size in (0..=1_500).step_by(250) {
        axes += &format!(
            "<text class=\"mid\" x=\"{:.1}\" y=\"356\">{size}</text>\n",
            place(size, 0.0).0
        );
    }
    axes
}

fn circle(class: &str, radius: u64, (x, y): (f64, f64), title: &str) -> String {
    format!("<circle class=\"{class}\" cx=\"{x:.1}\" cy=\"{y:.1}\" r=\"{radius}\"><title>{title}</title></circle>\n")
}
