//! A host in Rust: it lends its buffers to a job, stops after each 15 stores and goes on.
//! TRAY_LIB=FOLDER cargo run --example job --manifest-path host/tray/Cargo.toml        # FOLDER has libtray.a

use tray::{begin, floats, job, words, Inputs, JobNumber, Layer, Memory, Operator, Source, Stack, Window};

fn main() -> Result<(), Box<dyn std::error::Error>> {
    // A blue destination of 4 x 1 pixels, and a red source of 3 x 1, half transparent, laid one pixel to the right. The layer's
    // window has the first three columns of the destination: the last pixel stays blue.
    let blue = [0.0, 0.0, 1.0].repeat(4);
    let red = [1.0, 0.0, 0.0, 0.5].repeat(3);
    let source = Source { first: 0, width: 3, height: 1, channels: 4 };
    let window = Window { width: 3, ..Window::FULL };
    let layer = Layer { offset: (1, 0), window, ..Layer::new(Operator::Over, source) };
    let Stack { table, args } = &Stack::new(&[layer]);
    let (dst, samples) = (words(&blue), words(&red));
    let inputs = Inputs { width: 4, height: 1, channels: 3, dst, layers: 1, table, args, samples };

    // What a job writes: two work buffers of four words a pixel, and the mark. Where these lie in shared memory or in a
    // mapped file, another process may go on, after this one was stopped between two calls or killed in one.
    let (mut work0, mut work1, mut mark) = ([0; 16], [0; 16], [0; 2]);
    // The job's number, which no other job has had: 64 random bits, or as here the next one of a host that counts its jobs. The
    // mark is given it once, before the first call, and each call carries it.
    let number = JobNumber(1);
    begin(&mut mark, number);
    loop {
        let progress = job(&inputs, number, 15, Memory { work0: &mut work0, work1: &mut work1, mark: &mut mark })?;
        println!("{} stores, mark {}", progress.stores, mark[0]);
        if progress.finished {
            break;
        }
    }

    // A job of one layer ends in work buffer 1.
    for pixel in floats(&work1).chunks(4) {
        println!("{} {} {} {}", pixel[0], pixel[1], pixel[2], pixel[3]);
    }
    Ok(())
}
