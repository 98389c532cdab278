//! A reader and a card play against each other: selection, a message of 4,096 bytes each way, a sweep of 16 cards, one of them woken, Type B cards in
//! their slots, and damage of every kind.
mod lacrivosum;
use lacrivosum::type_b::{CardB, Held, ReaderB};
use lacrivosum::*;

fn hex(bytes: &[u8]) -> String {
    bytes.iter().map(|b| format!("{b:02X}")).collect::<Vec<_>>().join(" ")
}

/// One end's host: the message that it sends and the buffer in which the other's is joined.
struct Host {
    says: Vec<u8>,
    buffer: Vec<u8>,
}

impl Host {
    fn new(says: Vec<u8>) -> Host {
        Host { says, buffer: vec![0; MESSAGE_MAX] }
    }
}

/// The reader's frames go to the card and the card's answers back, until the reader has nothing to send. Gives the number of frames.
fn until_quiet(reader: &mut Reader, card: &mut Card, first: Row, r: &mut Host, k: &mut Host) -> Result<usize, Refusal> {
    let (mut frame, mut frames) = (first, 0);
    while !frame.is_empty() {
        frames += 1;
        let lent: &[u8] = if card.owes() { &[] } else { &k.says };
        let mut heard = card.take(&frame, lent, &mut k.buffer)?;
        if card.owes() {
            heard = card.reply(&k.says)?;
        }
        frame = reader.hear(&heard, &r.says, &mut r.buffer)?;
    }
    Ok(frames)
}

fn selected(uid: &[u8]) -> Result<(Reader, Card), Refusal> {
    let (mut reader, mut card) = (Reader::new(), Card::new(uid, true, 8)?);
    card.power_on();
    let first = reader.select()?;
    until_quiet(&mut reader, &mut card, first, &mut Host::new(vec![]), &mut Host::new(vec![]))?;
    Ok((reader, card))
}

fn talk() -> Result<(), Refusal> {
    let (mut reader, mut card) = selected(&[0x04, 0xA1, 0xB2, 0xC3, 0xD4, 0xE5, 0xF6])?;
    println!("selected {} SAK {:02X}; the card is in {}", hex(&reader.uid()), reader.sak(), card.state());
    let mut r = Host::new((0..MESSAGE_MAX).map(|i| (7 * i) as u8).collect());
    let mut k = Host::new((0..MESSAGE_MAX).map(|i| (5 * i + 1) as u8).collect());
    let first = reader.rats(8)?;
    until_quiet(&mut reader, &mut card, first, &mut r, &mut k)?;
    println!("RATS and ATS: {:?}", reader.event());
    let first = reader.send(&r.says)?;
    let frames = until_quiet(&mut reader, &mut card, first, &mut r, &mut k)?;
    assert_eq!(reader.event(), Event::Message(MESSAGE_MAX));
    assert!(r.buffer == k.says && k.buffer == r.says);
    println!("4,096 bytes each way in {frames} frames of the reader, both as they were sent");
    let first = reader.deselect()?;
    until_quiet(&mut reader, &mut card, first, &mut r, &mut k)?;
    println!("DESELECT: {:?}; the card is in {}", reader.event(), card.state());
    Ok(())
}

fn sweeps() -> Result<(), Refusal> {
    let field: Result<Vec<Card>, Refusal> = (0..16u8).map(|i| Card::new(&[0x04, 0x10, 0x20, 0x30 + i / 4, 0x40, 0x50, 16 * (i % 4) + i], false, 0)).collect();
    let mut field = field?;
    field.iter_mut().for_each(Card::power_on);
    let (mut plain, mut kept) = (field.clone(), field);
    let (a, b) = (sweep(&mut plain, 0, false)?, sweep(&mut kept, 0, true)?);
    assert!(a.uids == b.uids && plain == kept && a.uids.len() == 16);
    for u in &a.uids {
        println!("found {}", hex(u));
    }
    println!("16 cards found and halted: {} frames, with a memory {}; logs of {} and {} bytes", a.frames, b.frames, a.log.len(), b.log.len());
    let (reader, frames) = wake(&mut plain, &a.uids[9])?;
    let stand: Vec<&str> = plain.iter().map(Card::state).collect();
    assert!(reader.event() == Event::Selected && reader.uid() == a.uids[9]);
    println!("{} woken in {frames} frames: {} of the cards in Active*, {} halted", hex(&reader.uid()), stand.iter().filter(|s| **s == "Active*").count(), stand.iter().filter(|s| **s == "Halt").count());
    println!("another UID is refused {}", wake(&mut kept, &[1, 2, 3, 4]).err().expect("no card has it"));
    Ok(())
}

/// A request with four slots over five Type B cards; those that were alone are attached one after the other.
fn slots() -> Result<(), Refusal> {
    let numbers = [4, 2, 1, 2, 3];
    let mut field: Vec<(CardB, u8)> = numbers.iter().map(|&k| (CardB::new(&[0xB0, 0, k, 16 * k], 0x20, true, &[0; 4], &[0, 0x81, 0]), k)).collect();
    field[1].0 = CardB::new(&[0xB1, 1, 1, 1], 0x20, true, &[0; 4], &[0, 0x81, 0]);
    field.iter_mut().for_each(|(card, _)| card.power_on());
    let mut reader = ReaderB::new();
    for (i, held) in reader.inquire(false, 4, 0x20, &mut field)?.into_iter().enumerate() {
        let Held::One(atqb) = held else {
            println!("slot {}: {held:?}", i + 1);
            continue;
        };
        let frame = reader.attach(&atqb, 8)?;
        let answers: Result<Vec<Row>, Refusal> = field.iter_mut().map(|(card, number)| card.take(*number, &frame)).collect();
        let heard = answers?.into_iter().find(|row| !row.is_empty()).unwrap_or_default();
        reader.hear(&heard)?;
        println!("slot {}: PUPI {}, {:?}", i + 1, hex(&atqb[1..5]), reader.event());
    }
    println!("the cards are {}", field.iter().map(|(card, _)| card.state()).collect::<Vec<_>>().join(", "));
    Ok(())
}

/// What the reader says to a damaged SAK: each kind of damage has its number.
fn damage() -> Result<(), Refusal> {
    let uid = [0x04, 0xA1, 0xB2, 0xC3];
    let (mut reader, mut card) = (Reader::new(), Card::new(&uid, true, 8)?);
    card.power_on();
    let mut buffer = [0; 0];
    let mut frame = reader.select()?;
    let mut rows = vec![];
    for _ in 0..3 {
        let heard = card.take(&frame, &[], &mut buffer)?;
        rows.push((reader.clone(), heard.clone()));
        frame = reader.hear(&heard, &[], &mut buffer)?;
    }
    let awaited = ["ATQA", "level 1", "SAK"];
    for ((before, good), what) in rows.iter().zip(awaited) {
        let with = |at: usize, bits: &[u8]| {
            let mut row = good.clone();
            row[at..at + bits.len()].iter_mut().zip(bits).for_each(|(a, b)| *a ^= b);
            row
        };
        let mut collided = good.clone();
        *collided.last_mut().unwrap() = 2;
        let mut rows = vec![("silence", vec![]), ("one bit cut off", good[1..].to_vec()), ("a collided last bit", collided), ("one bit turned", with(3, &[1]))];
        if what != "ATQA" {
            rows.push(("a bit and its parity turned", with(4, &[1, 0, 0, 0, 1])));
        }
        for (kind, row) in rows {
            let mut reader = before.clone();
            match reader.hear(&row, &[], &mut buffer) {
                Ok(next) => println!("{what:8} {kind:28} taken: {} bits go out, {:?}", next.len(), reader.event()),
                Err(e) if e.0 == 3 => println!("{what:8} {kind:28} refused {e}, byte {}", reader.length()),
                Err(e) => println!("{what:8} {kind:28} refused {e}"),
            }
        }
    }
    let mut odd = Reader([0xA5; STATE_SIZE]);
    let before = odd.clone();
    println!("any bytes are one reader: select refused {}, and it stays as it was: {}", odd.select().unwrap_err(), odd == before);
    Ok(())
}

fn main() {
    for part in [talk, sweeps, slots, damage] {
        if let Err(e) = part() {
            println!("refused {e}");
            std::process::exit(1);
        }
    }
}
