//! Writes runs of random netlists, for a program that ticks models.
//!
//!     runs SEED NETLISTS TICKS BATCH EXPECTED
//!
//! Only netlists that lowering accepts are taken; those whose assignments form
//! a loop are among them. The README gives the formats.

use std::io::{BufWriter, Write};

use cells::Circuit;
use compare::{ROOMY, draw};
use generate::Rng;
use model::{Model, Refusal};

fn main() -> std::io::Result<()> {
    let arguments = std::env::args().skip(1).collect::<Vec<_>>();
    let number = |at: usize| arguments.get(at).and_then(|text| text.parse::<u64>().ok());
    let (Some(seed), Some(netlists), Some(ticks), [_, _, _, batch, expected]) =
        (number(0), number(1), number(2), arguments.as_slice())
    else {
        eprintln!("usage: runs SEED NETLISTS TICKS BATCH EXPECTED");
        std::process::exit(2)
    };
    let mut batch = BufWriter::new(std::fs::File::create(batch)?);
    let mut expected = BufWriter::new(std::fs::File::create(expected)?);
    let mut put = |words: &[u32]| {
        let bytes = words.iter().flat_map(|word| word.to_le_bytes()).collect::<Vec<_>>();
        batch.write_all(&bytes)
    };
    let mut taken = 0;
    for index in 0.. {
        if taken == netlists {
            break;
        }
        let netlist = generate::runnable(seed, index);
        let Ok(recording) = lower::lower_netlist(&netlist, ROOMY) else { continue };
        taken += 1;
        let lists = recording.words.each_ref().map(Vec::as_slice);
        let model = Model::new(lists).expect("a model of the Rust is well formed");
        let mut circuit = Circuit::new(&netlist);
        let loops = circuit.has_loop();
        let words = netlist::write(&netlist);
        put(&[words.len() as u32])?;
        put(&words)?;
        put(&[ticks as u32])?;
        let mut rng = Rng::new(!seed, index);
        let mut bytes = vec![0; model.signal_bits()];
        let mut bits = vec![0; model.input_bits()];
        for _ in 0..ticks {
            let tick = draw(&mut rng, &mut bits, &circuit.clocks(), model.signal_count());
            let (signal, edge) = tick.fired.unwrap_or((0, 0));
            put(&[u32::from(tick.fired.is_some()), signal, edge, tick.bits.len() as u32])?;
            put(&tick.bits.iter().copied().map(u32::from).collect::<Vec<_>>())?;
            // Works are a matter of the program that reads this.
            match model.run(&mut bytes, model.works(), &tick.bits, tick.fired) {
                Ok(()) => {
                    let shown = model.shown(&bytes);
                    if !loops {
                        assert!(circuit.tick(&tick.bits, tick.fired));
                        assert_eq!(shown, circuit.shown());
                    }
                    let digits = shown.iter().map(|bit| char::from(b'0' + bit));
                    writeln!(expected, "{}", digits.collect::<String>())?;
                }
                Err(Refusal { number, place }) => writeln!(expected, "refused {number} {place}")?,
            }
        }
    }
    Ok(())
}
