// yrs's text between its stand-ins, and what bench.c calls of it. An answer is 0, or -1 for an error.
#![allow(dead_code, unused, unexpected_cfgs)]
include!("stand_ins.rs");
include!("text.rs");

fn bytes<'a>(p: *const u8, n: usize) -> &'a [u8] {
    unsafe { std::slice::from_raw_parts(p, n) }
}
fn decode(form: u8, b: &[u8]) -> Result<Update, Error> {
    if form == 1 { Update::decode_v1(b) } else { Update::decode_v2(b) }
}
fn answer(r: Result<(), Error>) -> i32 {
    if r.is_ok() { 0 } else { -1 }
}

// Blocks and delete ranges. The update is dropped before this returns.
#[no_mangle]
pub extern "C" fn yrs_read(form: u8, p: *const u8, n: usize, out: &mut [u64; 2]) -> i32 {
    answer((|| {
        let u = decode(form, bytes(p, n))?;
        out[0] = u.blocks.clients.values().map(|b| b.len() as u64).sum();
        out[1] = u.delete_set.0.iter().map(|r| r.1.len() as u64).sum();
        Ok(())
    })())
}

// The diff's length, and its bytes if there is room for them (`out` may be null).
#[no_mangle]
pub extern "C" fn yrs_diff(form: u8, p: *const u8, n: usize, v: *const u8, m: usize, to: u8, out: *mut u8, room: usize, len: &mut u64) -> i32 {
    answer((|| {
        let u = decode(form, bytes(p, n))?;
        let vector = StateVector::decode_v1(bytes(v, m))?;
        let diff = if to == 1 {
            let mut e = EncoderV1::default();
            u.encode_diff(&vector, &mut e);
            e.to_vec()
        } else {
            let mut e = EncoderV2::default();
            u.encode_diff(&vector, &mut e);
            e.to_vec()
        };
        *len = diff.len() as u64;
        if !out.is_null() && diff.len() <= room {
            unsafe { std::ptr::copy_nonoverlapping(diff.as_ptr(), out, diff.len()) }
        }
        std::hint::black_box(&diff);
        Ok(())
    })())
}

// Blocks taken, blocks left, and the sum of all clocks reached.
#[no_mangle]
pub extern "C" fn yrs_sort(form: u8, p: *const u8, n: usize, v: *const u8, m: usize, out: &mut [u64; 3]) -> i32 {
    answer((|| {
        let u = decode(form, bytes(p, n))?;
        let clocks = StateVector::decode_v1(bytes(v, m))?.0;
        let mut t = TransactionMut { store: Store { blocks: BlockStore { clocks, taken: Vec::new() } } };
        let (pending, _) = u.integrate(&mut t)?;
        out[0] = t.store.blocks.taken.len() as u64;
        out[1] = pending.map_or(0, |p| p.update.blocks.clients.values().map(|b| b.len() as u64).sum());
        out[2] = t.store.blocks.clocks.values().map(|&k| k as u64).sum();
        Ok(())
    })())
}

// Reads so many values of a column: 0 numbers, 1 differences, 2 bytes, 3 texts. Their sum, of texts the sum of their lengths.
#[no_mangle]
pub extern "C" fn yrs_column(kind: u8, p: *const u8, n: usize, count: usize, sum: &mut u64) -> i32 {
    answer((|| {
        let c = Cursor::new(bytes(p, n));
        let mut s = 0u64;
        match kind {
            0 => {
                let mut d = UIntOptRleDecoder::new(c);
                for _ in 0..count {
                    s = s.wrapping_add(d.read_u64()?)
                }
            }
            1 => {
                let mut d = IntDiffOptRleDecoder::new(c);
                for _ in 0..count {
                    s = s.wrapping_add(d.read_u32()? as u64)
                }
            }
            2 => {
                let mut d = RleDecoder::new(c);
                for _ in 0..count {
                    s = s.wrapping_add(d.read_u8()? as u64)
                }
            }
            _ => {
                let mut d = StringDecoder::new(c)?;
                for _ in 0..count {
                    s = s.wrapping_add(d.read_str()?.len() as u64)
                }
            }
        }
        *sum = s;
        Ok(())
    })())
}

// Writes so many values, in words or (2) bytes, with the stand-ins for its writers; the column's length. No texts.
#[no_mangle]
pub extern "C" fn yrs_write_column(kind: u8, values: *const u64, count: usize) -> u64 {
    let words = || unsafe { std::slice::from_raw_parts(values, count) };
    let out = match kind {
        0 => {
            let mut e = UIntOptRleEncoder::default();
            for &v in words() {
                e.write(v)
            }
            e.done()
        }
        1 => {
            let mut e = IntDiffOptRleEncoder::default();
            for &v in words() {
                e.write(v as u32)
            }
            e.done()
        }
        _ => {
            let mut e = RleEncoder::default();
            for &v in bytes(values as *const u8, count) {
                e.write(v)
            }
            e.done()
        }
    };
    std::hint::black_box(&out).len() as u64
}
