//! `generate --seed S --count N`: N random cases of each operation on standard output. The same seed
//! gives the same cases. `generate --short` gives all short cases instead, and `generate --fixed` the
//! worked types and the limits. `--ops LIST` asks for these operations only, `--among LIST` for those
//! of them that are in this list too, `--besides LIST` for those that aren't; with `--most BYTES` longer
//! cases are left out.

mod build;
mod cases;
mod damage;
mod fixed;
mod fixed_fixes;
mod fixed_imports;
mod fixes;
mod imports;
mod lookup;
mod random;
mod shapes;
mod short;
mod spelled;
mod twin;

use std::env;
use std::io::{self, BufWriter, Write};

use random::Random;
use reference::case::{Case, OPS};

struct Wanted {
    seed: u64,
    count: u64,
    ops: Vec<u8>,
    most: usize,
    /// All cases of a list, in place of random ones.
    listed: Option<fn(u8) -> Vec<Case>>,
}

fn wanted() -> Option<Wanted> {
    let mut wanted = Wanted {
        seed: 1,
        count: 100,
        ops: OPS.to_vec(),
        most: usize::MAX,
        listed: None,
    };
    let (mut among, mut besides) = (OPS.to_vec(), Vec::new());
    let mut arguments = env::args().skip(1);
    while let Some(name) = arguments.next() {
        let mut value = || arguments.next();
        match name.as_str() {
            "--short" => wanted.listed = Some(short::cases),
            "--fixed" => wanted.listed = Some(fixed::cases),
            "--seed" => wanted.seed = value()?.parse().ok()?,
            "--count" => wanted.count = value()?.parse().ok()?,
            "--most" => wanted.most = value()?.parse().ok()?,
            "--op" | "--ops" => wanted.ops = ops(&value()?)?,
            "--among" => among = ops(&value()?)?,
            "--besides" => besides = ops(&value()?)?,
            _ => return None,
        }
    }
    let here = |op: &u8| among.contains(op) && !besides.contains(op);
    wanted.ops.retain(here);
    Some(wanted)
}

fn ops(list: &str) -> Option<Vec<u8>> {
    let op = |op: &str| op.parse().ok().filter(|op| OPS.contains(op));
    list.split(',').map(op).collect()
}

fn main() -> io::Result<()> {
    let Some(wanted) = wanted() else {
        eprintln!(
            "generate (--seed S --count N | --short | --fixed) [--ops LIST] [--among LIST] [--besides LIST] [--most BYTES]"
        );
        std::process::exit(2);
    };
    // Sizes and texts at a limit are found by running the type, which may be deep.
    stacker::maybe_grow(0, 0, || run(wanted))
}

fn run(wanted: Wanted) -> io::Result<()> {
    let mut out = BufWriter::new(io::stdout().lock());
    let mut write = |case: Case| {
        let bytes = case.write();
        let fits = bytes.len() <= wanted.most;
        out.write_all(if fits { &bytes } else { &[] })
    };
    if let Some(listed) = wanted.listed {
        let mut cases = wanted.ops.iter().flat_map(|&op| listed(op));
        cases.try_for_each(&mut write)?;
    } else {
        for case in 0..wanted.count {
            for &op in &wanted.ops {
                let mut random = Random::new(wanted.seed, op, case);
                write(cases::case(op, &mut random))?;
            }
        }
    }
    out.flush()
}
