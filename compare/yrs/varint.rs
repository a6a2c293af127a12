// Stand-in for yrs's encoding/varint.rs: a number of at most nine bytes that fits its type, else an error; minus zero is kept apart. What the real file
// does with longer numbers and with ones that do not fit is not known, so a tenth byte is never compared.
use crate::encoding::read::{Error, Read};

// The value under the first byte's `low` bits and seven bits of each later one, and that first byte.
fn spelt<R: Read>(r: &mut R, low: u32) -> Result<(u128, u8), Error> {
    let first = r.read_u8()?;
    let mut n = (first & ((1u16 << low) - 1) as u8) as u128;
    let (mut b, mut shift) = (first, low);
    while b >= 128 {
        if shift >= low + 8 * 7 {
            return Err(Error::InvalidVarInt);
        }
        b = r.read_u8()?;
        n |= ((b & 127) as u128) << shift;
        shift += 7;
    }
    Ok((n, first))
}
fn signed<R: Read>(r: &mut R) -> Result<(bool, i64), Error> {
    let (n, first) = spelt(r, 6)?;
    let n = i64::try_from(n).map_err(|_| Error::InvalidVarInt)?;
    let minus = first & 64 != 0;
    Ok((minus, if minus { -n } else { n }))
}

pub trait VarInt: Sized {
    fn read<R: Read>(r: &mut R) -> Result<Self, Error>;
}
impl VarInt for u32 {
    fn read<R: Read>(r: &mut R) -> Result<Self, Error> {
        spelt(r, 7)?.0.try_into().map_err(|_| Error::InvalidVarInt)
    }
}
impl VarInt for u64 {
    fn read<R: Read>(r: &mut R) -> Result<Self, Error> {
        spelt(r, 7)?.0.try_into().map_err(|_| Error::InvalidVarInt)
    }
}
impl VarInt for i32 {
    fn read<R: Read>(r: &mut R) -> Result<Self, Error> {
        signed(r)?.1.try_into().map_err(|_| Error::InvalidVarInt)
    }
}

pub struct Signed<T> {
    value: T,
    minus: bool,
}
impl<T: Copy> Signed<T> {
    pub fn is_negative(&self) -> bool {
        self.minus
    }
    pub fn value(&self) -> T {
        self.value
    }
}
pub trait SignedVarInt: Sized {
    fn read_signed<R: Read>(r: &mut R) -> Result<Signed<Self>, Error>;
}
impl SignedVarInt for i64 {
    fn read_signed<R: Read>(r: &mut R) -> Result<Signed<Self>, Error> {
        let (minus, value) = signed(r)?;
        Ok(Signed { value, minus })
    }
}
