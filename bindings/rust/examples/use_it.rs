use dcps::{LivelinessKind, Sample, State, Time};
use std::time::Duration;

fn main() -> Result<(), dcps::Refusal> {
    let (pen, writer) = (*b"pen-01          ", *b"plotter-1       ");
    let (second, at) = (Duration::from_secs(1), |sec| Time { sec, nanosec: 0 });
    let mut console = State::new();
    console.matched(writer, LivelinessKind::Automatic, Some(2 * second), Duration::ZERO)?;
    console.admit(&Sample::new(pen, writer, at(1)))?;
    for handle in console.lapse(3 * second, Some(at(3)))?.writerless {
        println!("instance {} is abandoned", handle.as_raw());
    }
    Ok(())
}
