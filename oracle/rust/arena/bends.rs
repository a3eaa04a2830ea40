//! Bends: `PitchBend` as an integer and as a float, and back. The mode changes nothing here.

use super::{
    port::{self, HELD},
    random::Random,
    report::{grouped, Entry},
};
use crate::{event::PitchBend, prelude::*};

struct Bends {
    random: Random,
    raw_values: Entry,
    as_int: Entry,
    as_f32: Entry,
    as_f64: Entry,
    from_int: Entry,
    from_f32: Entry,
    from_f64: Entry,
    /// Signalling NaNs, which stand apart: for them the Rust may differ from document 01, and the port may not.
    signalling_f32: Entry,
    signalling_f64: Entry,
    /// How often it did.
    listed: u64,
}

pub fn run(random: Random, full: bool) -> Vec<Entry> {
    let mut it = Bends {
        random,
        raw_values: Entry::new("apk_bend_min_raw_value, mid, max", &[0]),
        as_int: Entry::new("apk_bend_as_int", &[0, 18]),
        as_f32: Entry::new("apk_bend_as_f32", &[0, 18]),
        as_f64: Entry::new("apk_bend_as_f64", &[0, 18]),
        from_int: Entry::new("apk_bend_from_int", &[0]),
        from_f32: Entry::new("apk_bend_from_f32", &[0]),
        from_f64: Entry::new("apk_bend_from_f64", &[0]),
        signalling_f32: Entry::new("apk_bend_from_f32 of a signalling NaN (by document 01)", &[0]),
        signalling_f64: Entry::new("apk_bend_from_f64 of a signalling NaN (by document 01)", &[0]),
        listed: 0,
    };
    it.raw_values();
    (0..=u16::MAX).for_each(|raw| it.bend(raw));
    (i16::MIN..=i16::MAX).for_each(|int| it.from_int(int));
    it.floats_around_each_bend();
    it.floats_of_every_size(512, !full);
    it.floats_of_every_bend(if full { 70_000_000 } else { 10_000_000 }, !full);
    if full {
        (0..=u32::MAX).for_each(|bits| it.from_f32(bits));
    }
    println!(
        "  listed difference: the Rust gives 8,191 for {} of {} signalling NaNs",
        grouped(it.listed),
        grouped(it.signalling_f32.compared() + it.signalling_f64.compared()),
    );
    vec![
        it.raw_values, it.as_int, it.as_f32, it.as_f64, it.from_int, it.from_f32, it.from_f64, it.signalling_f32,
        it.signalling_f64,
    ]
}

// ---- which floats are compared

impl Bends {
    /// The float of each bend, of one that is a little beyond, and their neighbours.
    fn floats_around_each_bend(&mut self) {
        for bend in -8200..=8200 {
            for i in 0..7 {
                self.from_f32((bend as f32 / 8192.0).to_bits().wrapping_add(i).wrapping_sub(3));
                self.from_f64((bend as f64 / 8192.0).to_bits().wrapping_add(i as u64).wrapping_sub(3));
            }
        }
    }

    /// Every sign and exponent with the first bits of the fraction, each with a sample of the bits below, and with none,
    /// all and the last of them. Infinities and NaNs are among these.
    fn floats_of_every_size(&mut self, sample: usize, f32_too: bool) {
        for upper in 0..=u16::MAX {
            for i in 0..sample {
                let lower = match i {
                    0 => 0,
                    1 => u64::MAX,
                    2 => 1 << 16,
                    _ => self.random.bits(),
                };
                self.from_f64((upper as u64) << 48 | lower >> 16);
                if f32_too {
                    self.from_f32((upper as u32) << 16 | lower as u32 >> 16);
                }
            }
        }
    }

    /// A sample of the floats from 2 to the -15 up to 4, which the bends lie among.
    fn floats_of_every_bend(&mut self, sample: usize, f32_too: bool) {
        for _ in 0..sample {
            let (bits, exponent) = (self.random.bits(), self.random.below(17) as u64);
            self.from_f64(bits & (1 << 63) | (1023 - 15 + exponent) << 52 | bits & ((1 << 52) - 1));
            if f32_too {
                let bits = bits as u32;
                self.from_f32(bits & (1 << 31) | (127 - 15 + exponent as u32) << 23 | bits & ((1 << 23) - 1));
            }
        }
    }
}

// ---- one comparison each

impl Bends {
    fn raw_values(&mut self) {
        let rust = [PitchBend::min_raw_value(), PitchBend::mid_raw_value(), PitchBend::max_raw_value()];
        for (rust, port) in rust.iter().zip(&port::bend_raw_values()) {
            self.raw_values.compare((0, rust.0.as_int()), (0, *port), 0, || "no input".to_string());
        }
    }

    /// A raw bend as an integer and as a float. The Rust has none above 14 bits.
    fn bend(&mut self, raw: u16) {
        let (size, shown) = (raw as usize, || format!("raw {}", raw));
        let bend = u14::try_from(raw).map(PitchBend);
        let rust = bend.map_or((18, HELD as i16), |bend| (0, bend.as_int()));
        self.as_int.compare(rust, port::bend_as_int(raw), size, shown);
        let rust = bend.map_or((18, HELD as u32), |bend| (0, bend.as_f32().to_bits()));
        self.as_f32.compare(rust, port::bend_as_f32(raw), size, shown);
        let rust = bend.map_or((18, HELD), |bend| (0, bend.as_f64().to_bits()));
        self.as_f64.compare(rust, port::bend_as_f64(raw), size, shown);
    }

    fn from_int(&mut self, int: i16) {
        let rust = PitchBend::from_int(int).0.as_int();
        let size = int.unsigned_abs() as usize;
        self.from_int.compare((0, rust), (0, port::bend_from_int(int)), size, || format!("{}", int));
    }

    /// The raw bend that a signalling NaN must have. Document 01 says -8,192; that the Rust may give 8,191 is listed,
    /// and that it may give a third is not.
    fn of_signalling(&mut self, rust: u16) -> u16 {
        let listed = rust == 0x3FFF;
        self.listed += listed as u64;
        if listed { 0 } else { rust }
    }

    fn from_f32(&mut self, bits: u32) {
        let float = f32::from_bits(bits);
        let rust = PitchBend::from_f32(float).0.as_int();
        let port = port::bend_from_f32(bits);
        let shown = || format!("{:08X}, which is {:e}", bits, float);
        if float.is_nan() && bits & 1 << 22 == 0 {
            let due = self.of_signalling(rust);
            self.signalling_f32.compare((0, due), (0, port), bits as usize, shown);
        } else {
            self.from_f32.compare((0, rust), (0, port), bits as usize, shown);
        }
    }

    fn from_f64(&mut self, bits: u64) {
        let float = f64::from_bits(bits);
        let rust = PitchBend::from_f64(float).0.as_int();
        let port = port::bend_from_f64(bits);
        let shown = || format!("{:016X}, which is {:e}", bits, float);
        if float.is_nan() && bits & 1 << 51 == 0 {
            let due = self.of_signalling(rust);
            self.signalling_f64.compare((0, due), (0, port), bits as usize, shown);
        } else {
            self.from_f64.compare((0, rust), (0, port), bits as usize, shown);
        }
    }
}
