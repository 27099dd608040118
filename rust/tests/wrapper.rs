//! The wrapper over the example files: samples, saving and resuming, delays with their rules, the writing of frames, the frames of RTP payloads, G.711 legs, what each leg of a conference heard, playout depths, the agreement of two decoders, the comparison with a far one, every refusal that its types leave.

use holdamek::{
    delays, fields, mix, payload_frame, payload_frames, playout, write_fields, write_fields_parity,
    Agreement, Compared, Comparison, Counts, Decoder, Delay, Frame, Law, PayloadFrame,
    PayloadFrames, Refusal, Report, Rule, Samples, SpeechParams, StateBlock, TableBlock,
};
use holdamek::{
    COMPARE_WORDS, LONGEST_LINE, MOST_FRAMES, MOST_LEGS, MOST_PLAYOUT, MOST_RULE, STATE_WORDS,
    TABLE_WORDS,
};

const TABLES: &[u8] = include_bytes!("../../examples/tables.g729");
const CALL: &[u8] = include_bytes!("../../examples/example.call");
const SAMPLES: &str = include_str!("../../examples/example.samples");

fn tables() -> TableBlock {
    TableBlock::from_bytes(TABLES).unwrap()
}

fn call() -> Vec<Frame> {
    let lines = CALL.split_inclusive(|b| *b == b'\n');
    lines
        .map(|l| Frame::parse(&l[..l.len() - 1]).unwrap())
        .collect()
}

fn text(samples: &[i16]) -> String {
    let digits: String = samples.iter().map(|s| format!("{s:04x}")).collect();
    format!("(pcm {digits})")
}

#[test]
fn samples_of_the_example() {
    let tables = tables();
    let mut decoder = Decoder::new(&tables).unwrap();
    let mut counts = Counts::default();
    let mut due = SAMPLES.lines();
    for frame in call() {
        let (samples, report) = decoder.frame(&frame).unwrap();
        counts.count(&frame, report.rules).unwrap();
        assert_eq!(Some(text(&samples).as_str()), due.next());
    }
    assert_eq!(counts.numbers()[2..].iter().sum::<u32>(), 2 * counts.frames);
    assert_eq!(counts.concealed, 2 * counts.lost);
    assert_eq!(counts.relative, counts.frames - counts.lost);
    let total = format!("(total (frames {}) (lost {}))", counts.frames, counts.lost);
    assert_eq!(Some(total.as_str()), due.next());
}

#[test]
fn a_saved_state_resumes_at_every_place() {
    let tables = tables();
    let call = call();
    let mut whole = Decoder::new(&tables).unwrap();
    for at in 0..call.len() {
        let saved = whole.state().to_bytes();
        let mut resumed = Decoder::resume(&tables, StateBlock::from_bytes(&saved).unwrap());
        let mut twin = whole.clone();
        for frame in &call[at..] {
            assert_eq!(resumed.decode(frame), twin.decode(frame));
            assert_eq!(resumed.state(), twin.state());
        }
        whole.decode(&call[at]).unwrap();
    }
}

#[test]
fn tables_are_checked() {
    let mut words = *tables().words();
    assert_eq!(TableBlock::from_words(&words), Ok(tables()));
    assert_eq!(
        TableBlock::from_words(&words[1..]),
        Err(Refusal::TableLength)
    );
    assert_eq!(TableBlock::from_words(&[]), Err(Refusal::TableLength));
    assert_eq!(
        TableBlock::from_words(&[0; TABLE_WORDS + 1]),
        Err(Refusal::TableLength)
    );
    assert_eq!(
        TableBlock::from_bytes(&TABLES[1..]),
        Err(Refusal::TableLength)
    );
    assert_eq!(TableBlock::from_bytes(&[]), Err(Refusal::TableLength));
    for (delay, accepted) in [
        (18, false),
        (19, true),
        (144, true),
        (145, false),
        (-1, false),
    ] {
        words[1867] = delay;
        let due = if accepted {
            None
        } else {
            Some(Refusal::TableDelay)
        };
        assert_eq!(TableBlock::from_words(&words).err(), due);
    }
}

#[test]
fn states_are_checked_at_the_frame() {
    let tables = tables();
    let fresh = StateBlock::fresh(&tables).unwrap();
    assert_eq!(StateBlock::from_words(fresh.words()), Ok(fresh.clone()));
    assert_eq!(
        StateBlock::from_words(&[0; STATE_WORDS - 1]),
        Err(Refusal::StateLength)
    );
    assert_eq!(
        StateBlock::from_bytes(&[0; 2 * STATE_WORDS + 1]),
        Err(Refusal::StateLength)
    );
    for (place, word) in [(40, 2), (40, -1), (61, 18), (61, 145)] {
        let mut words = *fresh.words();
        words[place] = word;
        let state = StateBlock::from_words(&words).unwrap();
        let mut decoder = Decoder::resume(&tables, state.clone());
        assert_eq!(decoder.decode(&Frame::Erased), Err(Refusal::StateValues));
        assert_eq!(decoder.frame(&Frame::Erased), Err(Refusal::StateValues));
        assert_eq!(decoder.state(), &state);
    }
}

/// The answer for two states, the same both ways.
fn agreement(a: &StateBlock, words: &[i16]) -> Result<Agreement, Refusal> {
    let b = StateBlock::from_words(words).unwrap();
    assert_eq!(a.agreement(&b), b.agreement(a));
    a.agreement(&b)
}

#[test]
fn states_tell_how_far_decoders_agree() {
    let tables = tables();
    let fresh = StateBlock::fresh(&tables).unwrap();
    assert_eq!(agreement(&fresh, fresh.words()), Ok(Agreement::Samples));
    let mut decoder = Decoder::new(&tables).unwrap();
    decoder.decode(&call()[0]).unwrap();
    decoder.decode(&Frame::Erased).unwrap();
    let state = decoder.state();
    // The fresh state gets the words of the other, part by part.
    let mut words = *fresh.words();
    for (part, due) in [
        (0..0, Agreement::Nothing),
        (0..62, Agreement::Nothing),
        (63..70, Agreement::Parameters),
        (62..63, Agreement::Pulses),
        (70..224, Agreement::Pulses),
        (224..234, Agreement::Samples),
    ] {
        words[part.clone()].copy_from_slice(&state.words()[part]);
        assert_eq!(agreement(state, &words), Ok(due));
    }
    // A word alone.
    for place in 0..STATE_WORDS {
        words[place] ^= 1;
        let due = match place {
            62 => Agreement::Parameters,
            70.. => Agreement::Pulses,
            _ => Agreement::Nothing,
        };
        assert_eq!(agreement(state, &words), Ok(due));
        words[place] ^= 1;
    }
    // The 13 low bits of the seed count.
    words[62] ^= 1 << 13;
    assert_eq!(agreement(state, &words), Ok(Agreement::Samples));
    for (place, word) in [(40, 2), (40, -1), (61, 18), (61, 145)] {
        let mut words = *state.words();
        words[place] = word;
        assert_eq!(agreement(state, &words), Err(Refusal::StateValues));
    }
}

#[test]
fn what_states_tell_holds_through_gaps() {
    let (tables, call) = (tables(), call());
    // What one of the decoders receives before the call; what their states tell in the end, and whether these are equal.
    for (past, due, equal) in [
        (vec![Frame::Erased], Agreement::Parameters, false),
        // The 13 low bits of the seed come round, the others don't.
        (vec![Frame::Erased; 2048], Agreement::Samples, false),
        (vec![call[1]], Agreement::Samples, true),
    ] {
        let mut a = Decoder::new(&tables).unwrap();
        let mut b = a.clone();
        for frame in &past {
            b.decode(frame).unwrap();
        }
        let mut told = a.state().agreement(b.state()).unwrap();
        assert_eq!(told, Agreement::Nothing);
        for frame in call.iter().chain(&call) {
            let (x, y) = (a.decode(frame).unwrap(), b.decode(frame).unwrap());
            assert!(told < Agreement::Samples || x == y);
            let next = a.state().agreement(b.state()).unwrap();
            assert!(told <= next);
            told = next;
        }
        assert_eq!((told, a.state() == b.state()), (due, equal));
    }
}

#[test]
fn lines_are_read() {
    let voice = Frame::Voice([0x3e, 0xa0, 0x1d, 0x77, 0x10, 0xdf, 0x31, 0x07, 0x79, 0x94]);
    assert_eq!(
        Frame::parse(b"(frame (voice 3ea01d7710df31077994))"),
        Ok(voice)
    );
    assert_eq!(
        Frame::parse(b"(frame (sid c0aa))"),
        Ok(Frame::Sid([0xc0, 0xaa]))
    );
    assert_eq!(Frame::parse(b"(frame (quiet))"), Ok(Frame::NoTransmission));
    assert_eq!(Frame::parse(b"(frame (lost))"), Ok(Frame::Erased));
    for line in [
        "",
        "(frame (lost))\n",
        "(frame (Lost))",
        "(frame (sid C0AA))",
        "(frame  (lost))",
    ] {
        assert_eq!(Frame::parse(line.as_bytes()), Err(Refusal::LineForm));
    }
    assert_eq!(
        fields(voice.payload()),
        Ok([0, 62, 20, 0, 117, 1, 5904, 13, 7, 9, 17, 239, 3, 1, 4])
    );
    assert_eq!(fields(&[0; 9]), Err(Refusal::PayloadLength));
}

#[test]
fn lines_are_written() {
    for line in CALL.split_inclusive(|b| *b == b'\n') {
        let line = &line[..line.len() - 1];
        let frame = Frame::parse(line).unwrap();
        let mut out = [0x7e; LONGEST_LINE];
        assert_eq!(frame.write(&mut out), Ok(line));
        assert_eq!(Frame::parse(&out[..line.len()]), Ok(frame));
        assert!(out[line.len()..].iter().all(|b| *b == 0x7e));
    }
    for frame in [
        Frame::Sid([0xc0, 0xaa]),
        Frame::NoTransmission,
        Frame::Erased,
    ] {
        let mut out = [0; LONGEST_LINE];
        assert_eq!(frame.write(&mut out).and_then(Frame::parse), Ok(frame));
    }
}

/// The greatest number of each field (G.729 Table 8), in the order of their bits.
const MOST: [u16; 15] = [1, 127, 31, 31, 255, 1, 8191, 15, 7, 15, 31, 8191, 15, 7, 15];
/// The place of P0 among them.
const P0: usize = 5;

fn without_p0(fields: &[u16; 15]) -> Vec<u16> {
    [&fields[..P0], &fields[P0 + 1..]].concat()
}

#[test]
fn fields_have_names() {
    let voice = [0x3e, 0xa0, 0x1d, 0x77, 0x10, 0xdf, 0x31, 0x07, 0x79, 0x94];
    let params = SpeechParams {
        l0: 0,
        l1: 62,
        l2: 20,
        l3: 0,
        p1: 117,
        p0: 1,
        c1: 5904,
        s1: 13,
        ga1: 7,
        gb1: 9,
        p2: 17,
        c2: 239,
        s2: 3,
        ga2: 1,
        gb2: 4,
    };
    assert_eq!(SpeechParams::unpack(&voice), Ok(params));
    assert_eq!(params.pack(), Ok(voice));
    assert_eq!(SpeechParams::default().fields(), [0; 15]);
}

#[test]
fn fields_are_written_up_to_their_widths() {
    assert_eq!(write_fields(&[0; 15]), Ok([0; 10]));
    assert_eq!(write_fields(&MOST), Ok([0xff; 10]));
    for (others, place) in [[0; 15], MOST]
        .iter()
        .flat_map(|o| (0..15).map(move |n| (o, n)))
    {
        let mut numbers = *others;
        numbers[place] = MOST[place];
        let bytes = write_fields(&numbers).unwrap();
        assert_eq!(fields(&bytes), Ok(numbers));
        for above in [MOST[place] + 1, u16::MAX] {
            numbers[place] = above;
            let params = SpeechParams::from_fields(numbers);
            assert_eq!(params.fields(), numbers);
            assert_eq!(write_fields(&numbers), Err(Refusal::FieldWidth));
            assert_eq!(params.pack(), Err(Refusal::FieldWidth));
            // P0 is looked at by neither of these.
            let due = (place != P0).then_some(Refusal::FieldWidth);
            assert_eq!(write_fields_parity(&without_p0(&numbers)).err(), due);
            assert_eq!(params.pack_with_parity().err(), due);
        }
    }
}

#[test]
fn another_number_of_fields_is_refused() {
    for length in 0..=20 {
        // Too wide as well: their number is looked at first.
        let numbers = vec![u16::MAX; length];
        let due = |right| match length == right {
            true => Refusal::FieldWidth,
            false => Refusal::ReceiverLength,
        };
        assert_eq!(write_fields(&numbers), Err(due(15)));
        assert_eq!(write_fields_parity(&numbers), Err(due(14)));
    }
}

#[test]
fn what_was_read_is_written_again() {
    let mut frames = 0;
    for frame in call() {
        let Frame::Voice(bytes) = frame else { continue };
        let numbers = fields(&bytes).unwrap();
        assert_eq!(write_fields(&numbers), Ok(bytes));
        let params = SpeechParams::unpack(&bytes).unwrap();
        assert_eq!(params.fields(), numbers);
        assert_eq!(SpeechParams::from_fields(numbers), params);
        assert_eq!(params.pack(), Ok(bytes));
        // All frames of the example pass parity.
        assert_eq!(write_fields_parity(&without_p0(&numbers)), Ok(bytes));
        assert_eq!(params.pack_with_parity(), Ok(bytes));
        frames += 1;
    }
    assert_eq!(frames, 40);
}

/// Whether a voice frame passes parity: a comparison counts from the first that does.
fn passes(tables: &TableBlock, bytes: [u8; 10]) -> bool {
    let mut comparison = Comparison::new(tables).unwrap();
    let told = comparison.compare(&Frame::Voice(bytes), &[0; 80]);
    assert!(matches!(told, Ok(Compared::Settling(0 | 1))));
    told == Ok(Compared::Settling(1))
}

#[test]
fn parity_passes_with_the_supplied_p0_alone() {
    let tables = tables();
    for p1 in 0..256 {
        let mut params = SpeechParams::from_fields(MOST);
        params.p1 = p1;
        let bytes = params.pack_with_parity().unwrap();
        let supplied = SpeechParams::unpack(&bytes).unwrap();
        // Bits 2 to 7 of P1, P0 and 1 have an even sum.
        assert_eq!(
            (u32::from(p1 >> 2).count_ones() + u32::from(supplied.p0)) % 2,
            1
        );
        for p0 in 0..2 {
            params.p0 = p0;
            assert_eq!(params.pack_with_parity(), Ok(bytes));
            let written = params.pack().unwrap();
            assert_eq!(written == bytes, p0 == supplied.p0);
            assert_eq!(passes(&tables, written), p0 == supplied.p0);
        }
    }
}

/// Bytes that tell their place.
fn bytes(length: usize) -> Vec<u8> {
    (0..length).map(|n| (n * 7 + n / 256) as u8).collect()
}

/// The parts of a payload, as RFC 3551 has them: tens while there are ten, then two; nothing else may be left.
fn parts(mut payload: &[u8]) -> Option<Vec<&[u8]>> {
    let mut parts = Vec::new();
    while payload.len() >= 10 {
        let (part, behind) = payload.split_at(10);
        parts.push(part);
        payload = behind;
    }
    match payload.len() {
        0 => {}
        2 => parts.push(payload),
        _ => return None,
    }
    Some(parts)
}

/// Indexes that no payload has; ten times some of them, or a little more, overflows.
const NO_INDEX: [usize; 6] = [
    usize::MAX / 10 + 1,
    usize::MAX / 5 + 1,
    usize::MAX / 2,
    usize::MAX / 2 + 1,
    usize::MAX - 1,
    usize::MAX,
];

#[test]
fn payloads_of_every_length_have_their_frames() {
    for length in (0..=200).chain([65_532, 65_535, 1_000_002]) {
        let payload = bytes(length);
        let indexes = (0..length + 2).chain(NO_INDEX);
        let Some(due) = parts(&payload) else {
            // The remainder comes first, whatever the index.
            let refused = Refusal::PayloadRemainder;
            assert!(![0, 2].contains(&(length % 10)));
            assert_eq!(payload_frames(&payload), Err(refused));
            assert_eq!(PayloadFrames::new(&payload).err(), Some(refused));
            for index in indexes {
                assert_eq!(payload_frame(&payload, index), Err(refused));
            }
            continue;
        };
        assert_eq!(payload_frames(&payload), Ok(due.len()));
        for index in indexes {
            let frame = payload_frame(&payload, index);
            let Some(part) = due.get(index) else {
                assert_eq!(frame, Err(Refusal::FrameIndex));
                continue;
            };
            let frame = frame.unwrap();
            assert_eq!(frame.kind(), u32::from(part.len() == 2));
            assert_eq!(frame.bytes(), *part);
            // It is that part of the payload itself.
            assert_eq!(frame.bytes().as_ptr_range(), part.as_ptr_range());
        }
    }
}

#[test]
fn the_frames_of_a_payload_are_the_payload() {
    for length in (0..=200).filter(|n| [0, 2].contains(&(n % 10))) {
        let payload = bytes(length);
        let frames = PayloadFrames::new(&payload).unwrap();
        assert_eq!(Ok(frames.len()), payload_frames(&payload));
        let forwards: Vec<_> = frames.clone().collect();
        let joined: Vec<u8> = forwards.iter().flat_map(|f| f.bytes()).copied().collect();
        assert_eq!(joined, payload);
        for (index, frame) in forwards.iter().enumerate() {
            assert_eq!(payload_frame(&payload, index), Ok(*frame));
            assert_eq!(frames.clone().nth(index), Some(*frame));
        }
        let mut backwards: Vec<_> = frames.clone().rev().collect();
        backwards.reverse();
        assert_eq!(backwards, forwards);
        // From both ends by turns: each frame once, and then no more.
        let (mut both, mut ends) = (frames.clone(), (Vec::new(), Vec::new()));
        for left in (0..frames.len()).rev() {
            match left % 2 {
                0 => ends.0.extend(both.next()),
                _ => ends.1.extend(both.next_back()),
            }
            assert_eq!((both.len(), both.size_hint()), (left, (left, Some(left))));
        }
        ends.0.extend(ends.1.iter().rev());
        assert_eq!(ends.0, forwards);
        for _ in 0..2 {
            assert_eq!((both.next(), both.next_back()), (None, None));
        }
        for index in NO_INDEX {
            assert_eq!(frames.clone().nth(index), None);
        }
    }
}

#[test]
fn frames_outlive_their_iterator() {
    let payload = bytes(22);
    let last = {
        let mut frames = PayloadFrames::new(&payload).unwrap();
        frames.next_back()
    };
    assert_eq!(last, Some(PayloadFrame::Sid(&[payload[20], payload[21]])));
}

#[test]
fn frames_of_payloads_are_decoded() {
    let tables = tables();
    let (mut whole, mut by_payloads) = (
        Decoder::new(&tables).unwrap(),
        Decoder::new(&tables).unwrap(),
    );
    let received: Vec<_> = call().into_iter().filter(|f| f.kind() < 2).collect();
    // A payload ends behind each SID frame, and behind three frames.
    let mut frames = &received[..];
    while !frames.is_empty() {
        let sid = frames.iter().position(|f| f.kind() == 1);
        let (sent, behind) = frames.split_at(sid.map_or(3, |n| n + 1).min(3).min(frames.len()));
        frames = behind;
        let payload: Vec<u8> = sent.iter().flat_map(|f| f.payload()).copied().collect();
        let parts = PayloadFrames::new(&payload).unwrap();
        assert_eq!(parts.len(), sent.len());
        for (part, due) in parts.zip(sent) {
            let frame = Frame::from(part);
            assert_eq!(frame, *due);
            assert_eq!((part.kind(), part.bytes()), (due.kind(), due.payload()));
            assert_eq!(by_payloads.decode(&part.into()), whole.decode(due));
            let (mut line, mut due_line) = ([0; LONGEST_LINE], [0; LONGEST_LINE]);
            assert_eq!(frame.write(&mut line), due.write(&mut due_line));
        }
    }
    assert_eq!(by_payloads.state(), whole.state());
}

const LAWS: [Law; 2] = [Law::A, Law::Mu];

/// The sample that a byte is read as: sign, exponent and mantissa of the byte with its bits flipped, as G.711 has them.
fn value(law: Law, byte: u8) -> i16 {
    let flipped = match law {
        Law::A => byte ^ 0x55,
        Law::Mu => !byte,
    };
    let (s, e, m) = (flipped >> 7, flipped >> 4 & 7, i16::from(flipped & 15));
    match (law, e) {
        (Law::A, 0) => (16 * m + 8) * if s == 1 { 1 } else { -1 },
        (Law::A, _) => ((16 * m + 264) << (e - 1)) * if s == 1 { 1 } else { -1 },
        (Law::Mu, _) => (((8 * m + 132) << e) - 132) * if s == 1 { -1 } else { 1 },
    }
}

fn values(law: Law) -> Vec<i16> {
    (0..=255).map(|byte| value(law, byte)).collect()
}

#[test]
fn every_byte_of_a_leg_comes_back() {
    let every: Vec<u8> = (0..=255).collect();
    for (law, number) in LAWS.into_iter().zip(1..) {
        assert_eq!(law.number(), number);
        let (mut samples, mut bytes) = ([0; 256], [0; 256]);
        assert_eq!(law.read(&every, &mut samples), Ok(()));
        assert_eq!(samples.as_slice(), values(law));
        assert_eq!(law.write(&samples, &mut bytes), Ok(()));
        let mut due = every.clone();
        if law == Law::Mu {
            // Both 7F and FF are read as 0.
            due[0x7f] = 0xff;
        }
        assert_eq!(bytes.as_slice(), due);
        // One by one.
        for (place, byte) in every.iter().enumerate() {
            let (mut sample, mut back) = ([7; 1], [7; 1]);
            assert_eq!(law.read(&[*byte], &mut sample), Ok(()));
            assert_eq!(law.write(&sample, &mut back), Ok(()));
            assert_eq!((sample, back), ([samples[place]], [due[place]]));
        }
    }
}

#[test]
fn every_other_sample_is_refused() {
    for law in LAWS {
        let values = values(law);
        let mut taken = 0;
        for sample in i16::MIN..=i16::MAX {
            let mut byte = [0x7e];
            let answer = law.write(&[sample], &mut byte);
            if values.contains(&sample) {
                assert_eq!(answer, Ok(()));
                assert_eq!(value(law, byte[0]), sample);
                taken += 1;
            } else {
                assert_eq!((answer, byte), (Err(Refusal::NoTableValue), [0x7e]));
            }
        }
        assert_eq!(taken, if law == Law::A { 256 } else { 255 });
        // Wherever it stands among samples that are values, nothing is written.
        for place in 0..values.len() {
            let (mut samples, mut bytes) = (values.clone(), [0x7e; 256]);
            samples[place] ^= 1;
            let answer = law.write(&samples, &mut bytes);
            assert_eq!((answer, bytes), (Err(Refusal::NoTableValue), [0x7e; 256]));
        }
    }
}

#[test]
fn a_leg_has_as_many_bytes_as_samples() {
    let refused = Err(Refusal::OutputLength);
    for law in LAWS {
        for (bytes, samples) in (0..20).flat_map(|b| (0..20).map(move |s| (b, s))) {
            // No sample is a value: their number comes first.
            let (mut lent, mut words) = (vec![0x7e; bytes], vec![1; samples]);
            let due = match (bytes == samples, samples) {
                (false, _) => refused,
                (true, 0) => Ok(()),
                (true, _) => Err(Refusal::NoTableValue),
            };
            assert_eq!(law.write(&words, &mut lent), due);
            assert_eq!(lent, vec![0x7e; bytes]);
            let due = if bytes == samples { Ok(()) } else { refused };
            assert_eq!(law.read(&lent, &mut words), due);
            let read = if due.is_ok() { value(law, 0x7e) } else { 1 };
            assert_eq!(words, vec![read; samples]);
        }
        assert_eq!(law.read(&[], &mut []), Ok(()));
        assert_eq!(law.write(&[], &mut []), Ok(()));
    }
}

/// The sum of what all legs but one have at each place, limited.
fn others(legs: &[Samples], own: usize) -> Samples {
    std::array::from_fn(|place| {
        let samples = legs.iter().map(|leg| i32::from(leg[place]));
        let sum = samples.sum::<i32>() - i32::from(legs[own][place]);
        sum.clamp(i16::MIN.into(), i16::MAX.into()) as i16
    })
}

/// What each of these legs heard, each the sum of the others.
fn heard(legs: &[Samples]) -> Vec<Samples> {
    let mut heard = vec![[7; 80]; legs.len()];
    assert_eq!(mix(legs, &mut heard), Ok(()));
    for (own, samples) in heard.iter().enumerate() {
        assert_eq!(*samples, others(legs, own));
    }
    heard
}

/// As many legs, every sample another, and many sums at the limit.
fn legs(count: usize) -> Vec<Samples> {
    let sample = |leg: usize, place: usize| ((leg * 80 + place) * 7919) as u16 as i16;
    (0..count)
        .map(|leg| std::array::from_fn(|place| sample(leg, place)))
        .collect()
}

#[test]
fn each_leg_hears_the_sum_of_the_others() {
    for count in 1..=MOST_LEGS {
        heard(&legs(count));
        // Every choice of samples at the limits and beside zero, a choice at each place.
        let ends = [-32768, -1, 1, 32767];
        for first in (0..1 << (2 * count)).step_by(80) {
            let sample = |leg: usize, place: usize| ends[(first + place) >> (2 * leg) & 3];
            let chosen = |leg| std::array::from_fn(|place| sample(leg, place));
            heard(&(0..count).map(chosen).collect::<Vec<Samples>>());
        }
    }
}

#[test]
fn one_leg_hears_nothing_and_two_each_other() {
    assert_eq!(heard(&[[i16::MIN; 80]]), [[0; 80]]);
    for (a, b) in (i16::MIN..=i16::MAX).zip((i16::MIN..=i16::MAX).rev()) {
        assert_eq!(heard(&[[a; 80], [b; 80]]), [[b; 80], [a; 80]]);
    }
}

#[test]
fn only_the_whole_sum_is_limited() {
    let (most, least) = ([i16::MAX; 80], [i16::MIN; 80]);
    assert_eq!(heard(&[most; 3]), [most; 3]);
    assert_eq!(heard(&[least; 3]), [least; 3]);
    assert_eq!(heard(&[most; MOST_LEGS]), [most; MOST_LEGS]);
    // The last leg hears two that would be at the limit, and two that take them back.
    for four in [[most, most, least, least], [least, least, most, most]] {
        let mut five = four.to_vec();
        five.push([5; 80]);
        assert_eq!(heard(&five)[4], [-2; 80]);
    }
}

#[test]
fn legs_in_another_order_hear_the_same() {
    let mut legs = legs(MOST_LEGS);
    let mut due = heard(&legs);
    for turn in 0..2 * MOST_LEGS {
        legs.rotate_left(1);
        due.rotate_left(1);
        if turn == MOST_LEGS {
            legs.reverse();
            due.reverse();
        }
        assert_eq!(heard(&legs), due);
        legs.swap(2, 5);
        due.swap(2, 5);
        assert_eq!(heard(&legs), due);
    }
}

#[test]
fn other_numbers_of_legs_are_refused() {
    for (count, room) in (0..12).flat_map(|c| (0..12).map(move |r| (c, r))) {
        let mut heard = vec![[7; 80]; room];
        // Their number comes first.
        let due = match (1..=MOST_LEGS).contains(&count) {
            false => Err(Refusal::LegsLength),
            true if room != count => Err(Refusal::OutputLength),
            true => Ok(()),
        };
        assert_eq!(mix(&legs(count), &mut heard), due);
        if due.is_err() {
            assert_eq!(heard, vec![[7; 80]; room]);
        }
    }
    assert_eq!(mix(&[], &mut []), Err(Refusal::LegsLength));
    assert_eq!(mix(&[[1; 80]; 9], &mut []), Err(Refusal::LegsLength));
    assert_eq!(mix(&[[1; 80]; 8], &mut []), Err(Refusal::OutputLength));
}

#[test]
fn legs_of_both_codecs_are_mixed() {
    let tables = tables();
    let mut decoder = Decoder::new(&tables).unwrap();
    for (n, frame) in call().iter().enumerate() {
        let bytes: [u8; 80] = std::array::from_fn(|place| (place * 5 + n * 11) as u8);
        let mut conference = [[0; 80]; 3];
        Law::Mu.read(&bytes, &mut conference[0]).unwrap();
        Law::A.read(&bytes, &mut conference[1]).unwrap();
        conference[2] = decoder.decode(frame).unwrap();
        heard(&conference);
    }
}

/// An arrival: the number of its frame, and its time.
type Arrival = (u32, u32);

/// When a frame is played.
fn played_at(start: u32, depth: u32, frame: u32) -> u64 {
    u64::from(start) + u64::from(depth) + 10 * u64::from(frame)
}

/// The kinds of so many frames at this start and depth, which are those of a plain double loop, and so is the lost count.
fn tried(start: u32, depth: u32, arrivals: &[Arrival], frames: usize) -> Vec<u32> {
    let (numbers, times): (Vec<u32>, Vec<u32>) = arrivals.iter().copied().unzip();
    let mut kinds = vec![7; frames];
    let lost = playout(start, depth, &numbers, &times, &mut kinds).unwrap();
    for (frame, kind) in (0..).zip(&kinds) {
        let at = played_at(start, depth, frame);
        let in_time = |a: &Arrival| a.0 == frame && u64::from(a.1) <= at;
        assert_eq!(*kind, if arrivals.iter().any(in_time) { 0 } else { 3 });
    }
    assert_eq!(lost as usize, kinds.iter().filter(|k| **k == 3).count());
    kinds
}

/// Numbers below a limit that seem random.
fn numbers_below() -> impl FnMut(u32) -> u32 {
    let mut seed = 1_u64;
    move |limit| {
        seed = seed.wrapping_mul(6364136223846793005).wrapping_add(1);
        (seed >> 33) as u32 % limit
    }
}

#[test]
fn a_frame_is_played_that_arrives_at_or_before_its_time() {
    let last = MOST_PLAYOUT as u32 - 1;
    for (start, depth) in [(0, 0), (0, 60), (1000, 0), (1000, 60), (70_000, 1_000_000)] {
        for frame in [0, 1, 2, 300, last] {
            let at = played_at(start, depth, frame) as u32;
            let alone = |time| tried(start, depth, &[(frame, time)], frame as usize + 1);
            assert_eq!(alone(at)[frame as usize], 0);
            assert_eq!(alone(at.saturating_sub(1))[frame as usize], 0);
            assert_eq!(alone(0)[frame as usize], 0);
            assert_eq!(alone(at + 1)[frame as usize], 3);
            assert_eq!(alone(u32::MAX)[frame as usize], 3);
            assert!(alone(at)[..frame as usize].iter().all(|kind| *kind == 3));
        }
    }
}

#[test]
fn times_of_playing_go_beyond_32_bits() {
    const MAX: u32 = u32::MAX;
    for (start, depth, frame, time, kind) in [
        (MAX, 0, 0, MAX, 0),
        (0, MAX, 0, MAX, 0),
        (MAX - 1, 0, 0, MAX, 3),
        (0, MAX - 1, 0, MAX, 3),
        (MAX - 1, 1, 0, MAX, 0),
        (MAX, 1, 0, MAX, 0),
        (MAX, 1, 0, 1, 0),
        (MAX, MAX, 0, MAX, 0),
        (1 << 31, 1 << 31, 0, MAX, 0),
        (1 << 31, (1 << 31) - 2, 0, MAX, 3),
        (MAX - 10, 0, 1, MAX, 0),
        (MAX - 11, 0, 1, MAX, 3),
        (MAX - 1, 0, 1, MAX, 0),
        (MAX - 40_950, 0, 4095, MAX, 0),
        (MAX - 40_951, 0, 4095, MAX, 3),
        (MAX, MAX, 4095, MAX, 0),
    ] {
        let kinds = tried(start, depth, &[(frame, time)], frame as usize + 1);
        assert_eq!(kinds[frame as usize], kind);
    }
}

/// The list in each of its orders.
fn orders(list: &[Arrival]) -> Vec<Vec<Arrival>> {
    if list.is_empty() {
        return vec![Vec::new()];
    }
    let behind = |first: usize| {
        let mut rest = list.to_vec();
        let arrival = rest.remove(first);
        orders(&rest)
            .into_iter()
            .map(move |order| [vec![arrival], order].concat())
    };
    (0..list.len()).flat_map(behind).collect()
}

#[test]
fn one_arrival_in_time_is_enough_in_any_order() {
    // Frame 0 in time, twice and late; frame 1 late and at its time; frame 2 late twice; frame 3 never.
    let arrivals = [
        (0, 105),
        (0, 100),
        (0, 900),
        (1, 121),
        (1, 120),
        (2, 131),
        (2, 132),
    ];
    let orders = orders(&arrivals);
    assert_eq!(orders.len(), 5040);
    for order in orders {
        assert_eq!(tried(100, 10, &order, 4), [0, 0, 3, 3]);
    }
    // Each arrival again, as often as there is room.
    let many = arrivals.repeat(MOST_PLAYOUT / arrivals.len());
    assert_eq!(tried(100, 10, &many, 4), [0, 0, 3, 3]);
}

#[test]
fn no_frames_and_no_arrivals() {
    assert_eq!(playout(0, 0, &[], &[], &mut []), Ok(0));
    assert_eq!(playout(u32::MAX, u32::MAX, &[], &[], &mut []), Ok(0));
    for frames in [1, 2, 80, MOST_PLAYOUT] {
        assert_eq!(tried(5, 6, &[], frames), vec![3; frames]);
    }
    // There is no frame that an arrival could be of.
    let refused = Err(Refusal::ArrivalNumber);
    assert_eq!(playout(0, 0, &[0], &[0], &mut []), refused);
    assert_eq!(playout(0, 0, &[0], &[], &mut []), refused);
    let refused = Err(Refusal::OutputLength);
    assert_eq!(playout(0, 0, &[], &[0], &mut []), refused);
}

#[test]
fn refusals_of_a_playout_depth_have_their_order() {
    let lengths = [0, 1, 2, MOST_PLAYOUT - 1, MOST_PLAYOUT, MOST_PLAYOUT + 1];
    let each = |n: usize| (lengths[n % 6], lengths[n / 6 % 6], lengths[n / 36 % 6]);
    for (frames, arrivals, times) in (0..216).map(each) {
        // A number at every place, or at the last alone, that is one above those of the frames.
        for wrong in [0, 1, arrivals] {
            let mut numbers = vec![frames.saturating_sub(1) as u32; arrivals];
            numbers[arrivals - wrong.min(arrivals)..].fill(frames as u32);
            let (lent, mut kinds) = (vec![0; times], vec![7; frames]);
            let due = if frames.max(arrivals) > MOST_PLAYOUT {
                Err(Refusal::PlayoutLimit)
            } else if numbers.iter().any(|number| *number as usize >= frames) {
                Err(Refusal::ArrivalNumber)
            } else if times != arrivals {
                Err(Refusal::OutputLength)
            } else {
                Ok((frames - arrivals.min(1)) as u32)
            };
            assert_eq!(playout(0, 0, &numbers, &lent, &mut kinds), due);
            if due.is_err() {
                assert_eq!(kinds, vec![7; frames]);
            }
        }
    }
}

#[test]
fn a_number_that_is_no_frames_is_refused_wherever_it_stands() {
    for frames in [1, 20, MOST_PLAYOUT] {
        for number in [frames as u32, frames as u32 + 1, 1 << 31, u32::MAX] {
            for place in [0, 1, 10, 18, 19] {
                let mut numbers = [0; 20];
                numbers[place] = number;
                let mut kinds = vec![7; frames];
                let answer = playout(0, 0, &numbers, &[0; 20], &mut kinds);
                assert_eq!(answer, Err(Refusal::ArrivalNumber));
                assert_eq!(kinds, vec![7; frames]);
            }
        }
    }
}

#[test]
fn a_greater_depth_never_makes_a_played_frame_lost() {
    let mut below = numbers_below();
    for _ in 0..20 {
        let arrivals: Vec<Arrival> = (0..150)
            .map(|_| {
                let frame = below(100);
                (frame, 1000 + 10 * frame + below(250))
            })
            .collect();
        let mut before = vec![3; 100];
        for depth in (0..=250).chain([1 << 31, u32::MAX]) {
            let kinds = tried(1000, depth, &arrivals, 100);
            assert!(kinds.iter().zip(&before).all(|(now, then)| now <= then));
            before = kinds;
        }
        let arrived = |frame| arrivals.iter().any(|a| a.0 == frame);
        assert!((0..)
            .zip(&before)
            .all(|(f, kind)| (*kind == 0) == arrived(f)));
    }
}

#[test]
fn depths_are_tried_on_arrivals_of_any_number() {
    let mut below = numbers_below();
    for turn in 0..2000 {
        let (frames, count) = (1 + below(50), below(80));
        let (start, depth) = match turn % 3 {
            0 => (below(200), below(200)),
            1 => (u32::MAX - below(400), below(400)),
            _ => (below(400), u32::MAX - below(400)),
        };
        let around = start.saturating_add(depth).saturating_sub(200);
        let arrivals: Vec<Arrival> = (0..count)
            .map(|_| (below(frames), around.saturating_add(below(900))))
            .collect();
        tried(start, depth, &arrivals, frames as usize);
    }
    let most = MOST_PLAYOUT as u32;
    let arrivals: Vec<Arrival> = (0..most)
        .map(|n| (n * 2731 % most, below(2 * 10 * most)))
        .collect();
    let lost = tried(0, 0, &arrivals, MOST_PLAYOUT);
    let lost = lost.iter().filter(|kind| **kind == 3).count();
    assert!((1000..4000).contains(&lost));
}

/// A delay of so many thirds of a sample.
fn thirds(thirds: i32) -> Delay {
    let integer = ((thirds + 1) / 3) as i16;
    let fraction = (thirds - 3 * i32::from(integer)) as i16;
    Delay { integer, fraction }
}

/// What a frame hands up and carries on, by its fields.
fn found(carried: i16, frame: &Frame) -> (Report, i16) {
    let Frame::Voice(bytes) = frame else {
        let grown = |delay: i16| (delay + 1).min(143);
        let delays = [carried, grown(carried)].map(|delay| thirds(3 * i32::from(delay)));
        let rules = [Rule::Concealed; 2];
        return (Report { delays, rules }, grown(grown(carried)));
    };
    let params = SpeechParams::unpack(bytes).unwrap();
    let (p1, p2) = (i32::from(params.p1), i32::from(params.p2));
    let odd = (params.p1 >> 2).count_ones() % 2;
    let (rule, first) = match u32::from(params.p0) {
        p0 if p0 == odd => (Rule::BadParity, 3 * i32::from(carried)),
        _ if p1 < 197 => (Rule::Thirds, p1 + 58),
        _ => (Rule::Whole, 3 * (p1 - 112)),
    };
    let first = thirds(first);
    let least = (i32::from(first.integer) - 5).clamp(20, 134);
    let second = thirds(3 * least + p2 - 2);
    let report = Report {
        delays: [first, second],
        rules: [rule, Rule::Relative],
    };
    (report, second.integer)
}

#[test]
fn every_p1_p0_and_p2_has_its_delays_and_rules() {
    for (p1, p0) in (0..256).flat_map(|p1| [(p1, 0), (p1, 1)]) {
        for (p2, carried) in (0..32).flat_map(|p2| [19, 60, 144].map(|c| (p2, c))) {
            let params = SpeechParams {
                p1,
                p0,
                p2,
                ..SpeechParams::default()
            };
            let frame = Frame::Voice(params.pack().unwrap());
            let mut next = carried;
            let report = delays(&mut next, &frame).unwrap();
            assert_eq!((report, next), found(carried, &frame));
            for delay in report.delays {
                assert!((-1..=1).contains(&delay.fraction));
                assert_eq!(thirds(delay.thirds()), delay);
            }
        }
    }
}

#[test]
fn carried_delays_are_used_and_grow() {
    for frame in [Frame::Sid([1, 2]), Frame::NoTransmission, Frame::Erased] {
        for carried in i16::MIN..=i16::MAX {
            let mut next = carried;
            let answer = delays(&mut next, &frame);
            if (19..=144).contains(&carried) {
                let (report, due) = found(carried, &frame);
                assert_eq!((answer, next), (Ok(report), due));
            } else {
                assert_eq!((answer, next), (Err(Refusal::StateValues), carried));
            }
        }
    }
    let whole = |integer| Delay {
        integer,
        fraction: 0,
    };
    let mut carried = 144;
    let report = delays(&mut carried, &Frame::Erased).unwrap();
    assert_eq!(report.delays, [whole(144), whole(143)]);
    assert_eq!(carried, 143);
}

#[test]
fn frames_hand_up_the_delays_that_are_found_without_samples() {
    let tables = tables();
    let mut decoder = Decoder::new(&tables).unwrap();
    let mut twin = decoder.clone();
    let mut carried = tables.words()[1867];
    let mut below = numbers_below();
    let mut met = Counts::default();
    let random = (0..3000).map(|_| match below(8) {
        0 => Frame::Sid([below(256) as u8, below(256) as u8]),
        1 => Frame::NoTransmission,
        2 => Frame::Erased,
        _ => Frame::Voice(std::array::from_fn(|_| below(256) as u8)),
    });
    for frame in call().into_iter().chain(random) {
        assert_eq!(decoder.state().words()[61], carried);
        let (due, next) = found(carried, &frame);
        let alone = delays(&mut carried, &frame).unwrap();
        let (samples, report) = decoder.frame(&frame).unwrap();
        assert_eq!((alone, report, carried), (due, due, next));
        assert_eq!(twin.decode(&frame), Ok(samples));
        assert_eq!(twin.state(), decoder.state());
        met.count(&frame, report.rules).unwrap();
    }
    assert!(Rule::ALL.iter().all(|rule| met.of(*rule) > 0));
    assert_eq!(met.numbers()[2..].iter().sum::<u32>(), 2 * met.frames);
}

#[test]
fn rules_have_their_numbers() {
    assert_eq!(Rule::ALL.map(Rule::number), [1, 2, 3, 4, 5]);
    let numbers = [10, 20, 30, 40, 50, 60, 70];
    let counts = Counts::from_numbers(numbers);
    assert_eq!(counts.numbers(), numbers);
    assert_eq!((counts.frames, counts.lost), (10, 20));
    assert_eq!(Rule::ALL.map(|rule| counts.of(rule)), [30, 40, 50, 60, 70]);
    let named = [
        counts.thirds,
        counts.whole,
        counts.relative,
        counts.bad_parity,
        counts.concealed,
    ];
    assert_eq!(named, [30, 40, 50, 60, 70]);
}

#[test]
fn each_rule_has_its_counter() {
    let frames = [
        Frame::Voice([0; 10]),
        Frame::Sid([0; 2]),
        Frame::NoTransmission,
        Frame::Erased,
    ];
    for frame in frames {
        for (first, second) in Rule::ALL
            .iter()
            .flat_map(|a| Rule::ALL.iter().map(move |b| (*a, *b)))
        {
            let mut counts = Counts::from_numbers([10, 20, 30, 40, 50, 60, 70]);
            let mut due = counts.numbers();
            due[0] += 1;
            due[1] += u32::from(frame.kind() != 0);
            due[1 + first.number() as usize] += 1;
            due[1 + second.number() as usize] += 1;
            assert_eq!(counts.count(&frame, [first, second]), Ok(()));
            assert_eq!(counts.numbers(), due);
        }
    }
}

#[test]
fn a_call_has_a_limit() {
    let rules = [Rule::Thirds, Rule::Relative];
    for place in 0..7 {
        let limit = if place < 2 { MOST_FRAMES } else { MOST_RULE };
        let mut numbers = [7; 7];
        numbers[place] = limit - 1;
        let mut counts = Counts::from_numbers(numbers);
        assert_eq!(counts.count(&Frame::Sid([0, 0]), rules), Ok(()));
        for full in [limit, limit + 1, u32::MAX] {
            numbers[place] = full;
            let mut counts = Counts::from_numbers(numbers);
            let refused = Err(Refusal::CountLimit);
            assert_eq!(counts.count(&Frame::Erased, rules), refused);
            assert_eq!(counts.numbers(), numbers);
        }
    }
    // The same rule twice.
    let mut counts = Counts {
        concealed: MOST_RULE - 1,
        ..Counts::default()
    };
    assert_eq!(counts.count(&Frame::Erased, [Rule::Concealed; 2]), Ok(()));
    assert_eq!(counts.numbers(), [1, 1, 0, 0, 0, 0, MOST_RULE + 1]);
}

#[test]
fn refusals_have_their_numbers() {
    assert_eq!(Refusal::CountLimit.code(), 10);
    assert_eq!(Refusal::PayloadRemainder.code(), 12);
    assert_eq!(Refusal::FrameIndex.code(), 13);
    assert_eq!(Refusal::FieldWidth.code(), 15);
    assert_eq!(Refusal::OtherLaw.code(), 16);
    assert_eq!(Refusal::NoTableValue.code(), 17);
    assert_eq!(Refusal::LegsLength.code(), 19);
    assert_eq!(Refusal::PlayoutLimit.code(), 20);
    assert_eq!(Refusal::ArrivalNumber.code(), 21);
    assert_eq!(Refusal::NoRule.code(), 24);
    assert_eq!(
        Refusal::LineForm.to_string(),
        "refusal 9: the line isn't one of the four forms"
    );
}

#[test]
fn threads_share_tables() {
    let (tables, call) = (tables(), call());
    std::thread::scope(|scope| {
        for _ in 0..4 {
            scope.spawn(|| {
                let mut decoder = Decoder::new(&tables).unwrap();
                for (frame, due) in call.iter().zip(SAMPLES.lines()) {
                    assert_eq!(text(&decoder.decode(frame).unwrap()), due);
                }
            });
        }
    });
}

/// The far end's samples of the example's frames, decoded from another past.
fn far_samples(tables: &TableBlock) -> Vec<[i16; 80]> {
    let fresh = StateBlock::fresh(tables).unwrap();
    let mut words = *fresh.words();
    for (n, word) in words.iter_mut().enumerate().skip(70) {
        *word = (n as i16 * 37) % 301 - 150;
    }
    let mut far = Decoder::resume(tables, StateBlock::from_words(&words).unwrap());
    call().iter().map(|f| far.decode(f).unwrap()).collect()
}

#[test]
fn a_far_decoder_is_known_whatever_its_past() {
    let tables = tables();
    let far = far_samples(&tables);
    let mut comparison = Comparison::new(&tables).unwrap();
    let (mut known, mut run) = (0, 0);
    for (frame, samples) in call().iter().zip(&far) {
        let mut resumed = Comparison::resume(&tables, *comparison.words());
        let told = comparison.compare(frame, samples).unwrap();
        assert_eq!(resumed.compare(frame, samples), Ok(told));
        assert_eq!(resumed.words(), comparison.words());
        match told {
            Compared::Concealed => {
                assert_ne!(frame.kind(), 0);
                run = 0;
            }
            Compared::Settling(n) => {
                run = n;
            }
            Compared::NotClean(n) => {
                run = n;
            }
            Compared::Known => {
                assert!(run >= 7);
                known += 1;
            }
            Compared::Differs { .. } => panic!("a sound line is blamed"),
        }
    }
    assert!(known > 0);
}

#[test]
fn a_changed_sample_is_found_where_it_is() {
    let tables = tables();
    let call = call();
    let far = far_samples(&tables);
    let mut sound = Comparison::new(&tables).unwrap();
    let (mut found, mut before) = (0, Compared::Concealed);
    for (at, (frame, samples)) in call.iter().zip(&far).enumerate() {
        let mut line = sound.clone();
        let confirmed = before == Compared::Known;
        before = sound.compare(frame, samples).unwrap();
        if before != Compared::Known {
            continue;
        }
        let mut changed = *samples;
        changed[at % 80] ^= 4;
        let rest = i32::from(changed[at % 80]) - i32::from(samples[at % 80]);
        let due = Compared::Differs {
            sample: at % 80,
            rest,
            computed: *samples,
        };
        assert_eq!(line.compare(frame, &changed), Ok(due));
        found += 1;
        // candidates that no frame has confirmed are dropped; others go on, so that the next frame is known again
        if let (true, Some(next), Some(samples)) = (confirmed, call.get(at + 1), far.get(at + 1)) {
            let due = match next.kind() {
                0 => Compared::Known,
                _ => Compared::Concealed,
            };
            assert_eq!(line.compare(next, samples), Ok(due));
        }
    }
    assert!(found > 0);
}

#[test]
fn a_comparison_of_wrong_words_is_refused() {
    let tables = tables();
    let mut comparison = Comparison::resume(&tables, [0; COMPARE_WORDS]);
    assert_eq!(
        comparison.compare(&Frame::Erased, &[1; 80]),
        Err(Refusal::StateValues)
    );
    assert_eq!(comparison.words(), &[0; COMPARE_WORDS]);
}
