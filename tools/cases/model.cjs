// What document 01 and docs/DECISIONS.md say of numbers and columns, in plain JavaScript with BigInt: the expectation, made without our Rattle code.
// A refusal has its number and its place (W-201): where in the bytes that were handed over it lies; 0 for writers.
'use strict'

const LIMIT = 2n ** 53n - 1n // a client, a number column's value, a unit length
const CLOCK = 2n ** 31n - 1n
const COUNT = 2147483645n // a stored run count
const HALF = 2n ** 30n

// ---- numbers

// The bytes of a number from `at`: the first has `low` value bits under its flags, the others seven; at most nine. An end lies where the bytes end, also
// for one that begins behind them; a number that is too long at its first byte.
const spelt = (s, at, low) => {
  let value = 0n
  let weight = 0n
  for (let k = 0; k < 9; k++) {
    if (at + BigInt(k) >= BigInt(s.length)) return { number: 1, place: s.length }
    const b = s[Number(at) + k]
    const bits = k === 0 ? low : 7
    value += BigInt(b & ((1 << bits) - 1)) << weight
    weight += BigInt(bits)
    if (b < 128) return { number: 0, value, next: at + BigInt(k) + 1n }
  }
  return { number: 2, place: Number(at) }
}

const readUnsigned = (s, at) => spelt(s, at, 7)

const readSigned = (s, at) => {
  const r = spelt(s, at, 6)
  return r.number !== 0 ? r : { number: 0, minus: (s[Number(at)] & 64) !== 0, magnitude: r.value, next: r.next }
}

const unsigned = x => {
  const out = []
  while (x > 127n) {
    out.push(Number(x & 127n) | 128)
    x >>= 7n
  }
  out.push(Number(x))
  return out
}

const signed = (minus, x) => {
  const first = Number(x & 63n) | (minus ? 64 : 0)
  return x > 63n ? [first | 128, ...unsigned(x >> 6n)] : [first]
}

// ---- what a writer answers: its refusals in their order, then the room

// A refusal that lies nowhere in what was read.
const nowhere = number => ({ number, place: 0 })
const written = (bytes, room) => BigInt(bytes.length) > room ? nowhere(10) : { number: 0, bytes }

const writeUnsigned = (value, room) => value >= 2n ** 63n ? nowhere(3) : written(unsigned(value), room)
const writeSigned = (minus, x, room) => x >= 2n ** 62n ? nowhere(3) : written(signed(minus, x), room)

// ---- columns, read: a function that draws, which gives { number, place } or { number: 0, value, from, to }: `from` is the first byte of the run that the
// value comes from, and the place of what is refused for its value, `to` where the run ends. Beside 3 and 7, for whoever compares, what is refused.

// A run's count that is refused lies at its own first byte.
const readCount = (s, at) => {
  const c = readUnsigned(s, at)
  return c.number === 0 && c.value > COUNT ? { number: 3, place: Number(at), what: 'run count', value: c.value } : c
}

// A signed number, then its count if minus, and only then the value's limit.
const numbers = (s, from = 0n) => {
  let at = from
  let first = 0
  let left = 0n
  let value = 0n
  return () => {
    if (left === 0n) {
      const r = readSigned(s, at)
      if (r.number !== 0) return r
      let times = 1n
      let next = r.next
      if (r.minus) {
        const c = readCount(s, next)
        if (c.number !== 0) return c
        times = c.value + 2n
        next = c.next
      }
      if (r.magnitude > LIMIT) return { number: 3, place: Number(at), what: 'column value' }
      first = Number(at)
      at = next
      left = times
      value = r.magnitude
    }
    left--
    return { number: 0, value, from: first, to: Number(at) }
  }
}

// e is tested when read, before its count; the clock that it leads to when drawn.
const differences = s => {
  let at = 0n
  let first = 0
  let left = 0n
  let difference = 0n
  let last = 0n
  return () => {
    let [nextAt, nextFirst, nextLeft, nextDifference] = [at, first, left, difference]
    if (left === 0n) {
      nextFirst = Number(at)
      const r = readSigned(s, at)
      if (r.number !== 0) return r
      const e = r.minus ? -r.magnitude : r.magnitude
      if (e < -(2n ** 31n) || e > 2n ** 31n - 1n) return { number: 3, place: nextFirst, what: 'difference' }
      nextAt = r.next
      nextLeft = 1n
      nextDifference = e >> 1n // rounds down, also below zero
      if ((e & 1n) === 1n) {
        const c = readCount(s, nextAt)
        if (c.number !== 0) return c
        nextAt = c.next
        nextLeft = c.value + 2n
      }
    }
    const value = last + nextDifference
    if (value < 0n || value > CLOCK) return { number: 3, place: nextFirst, what: value < 0n ? 'column clock below zero' : 'column clock' }
    at = nextAt
    first = nextFirst
    left = nextLeft - 1n
    difference = nextDifference
    last = value
    return { number: 0, value, from: first, to: Number(at) }
  }
}

const bytes = s => {
  let at = 0
  let first = 0
  let left = 0n
  let value = 0n
  let endless = false
  return () => {
    if (!endless && left === 0n) {
      if (at >= s.length) return { number: 1, place: s.length }
      if (at + 1 === s.length) {
        endless = true
        first = at
        value = BigInt(s[at])
        at++
      } else {
        const c = readCount(s, BigInt(at) + 1n)
        if (c.number !== 0) return c
        first = at
        value = BigInt(s[at])
        left = c.value + 1n
        at = Number(c.next)
      }
    }
    if (!endless) left--
    return { number: 0, value, from: first, to: at }
  }
}

const draws = (draw, times) => {
  const values = []
  for (let k = 0n; k < times; k++) {
    const r = draw()
    if (r.number !== 0) return { number: r.number, place: r.place, what: r.what, values }
    values.push(r.value)
  }
  return { number: 0, values }
}

// ---- text

// The characters of UTF-8 bytes as [place, bytes, units], or null: the Unicode Standard's table 3-7.
const characters = s => {
  const out = []
  let i = 0
  const between = (k, low, high) => k < s.length && s[k] >= low && s[k] <= high
  while (i < s.length) {
    const b = s[i]
    let size = 0
    if (b <= 0x7f) size = 1
    else if (b >= 0xc2 && b <= 0xdf) size = between(i + 1, 0x80, 0xbf) ? 2 : 0
    else if (b >= 0xe0 && b <= 0xef) {
      const low = b === 0xe0 ? 0xa0 : 0x80
      const high = b === 0xed ? 0x9f : 0xbf
      size = between(i + 1, low, high) && between(i + 2, 0x80, 0xbf) ? 3 : 0
    } else if (b >= 0xf0 && b <= 0xf4) {
      const low = b === 0xf0 ? 0x90 : 0x80
      const high = b === 0xf4 ? 0x8f : 0xbf
      size = between(i + 1, low, high) && between(i + 2, 0x80, 0xbf) && between(i + 3, 0x80, 0xbf) ? 4 : 0
    }
    if (size === 0) return null
    out.push([i, size, size === 4 ? 2n : 1n])
    i += size
  }
  return out
}

// Takes whole characters from the k-th on until the units are used: the character after them, or null.
const take = (chars, k, units) => {
  while (units > 0n) {
    if (k >= chars.length || chars[k][2] > units) return null
    units -= chars[k][2]
    k++
  }
  return k
}

// The text calls (operations 30 to 32). Counting and cutting look at the whole text first; taking looks at no byte past the last character taken.
const countUnits = s => {
  const chars = characters(s)
  if (chars === null) return nowhere(6)
  return { number: 0, units: chars.reduce((sum, [, , n]) => sum + n, 0n) }
}

const takeText = (s, at, units) => {
  if (at > BigInt(s.length)) return units === 0n ? { number: 0, bytes: 0 } : nowhere(7)
  const rest = s.slice(Number(at))
  let bytes = 0
  while (units > 0n) {
    // the next character: of one byte to four, no shorter prefix of it is UTF-8
    const next = [1, 2, 3, 4].map(n => rest.slice(bytes, bytes + n)).map(characters).find(chars => chars !== null && chars.length === 1)
    if (next === undefined || next[0][2] > units) return nowhere(7)
    bytes += next[0][1]
    units -= next[0][2]
  }
  return { number: 0, bytes }
}

const cutText = (s, units) => {
  const chars = characters(s)
  if (chars === null) return nowhere(6)
  if (units > chars.reduce((sum, [, , n]) => sum + n, 0n)) return nowhere(7)
  const k = take(chars, 0, units)
  if (k === null) return nowhere(9)
  return { number: 0, bytes: k < chars.length ? chars[k][0] : s.length }
}

// Opens a text column: its length, bytes and UTF-8 are looked at. Gives { number, place } or { number: 0, draw, start }; a drawn text has its place in the
// column, and the run of its unit length.
// What is not UTF-8 lies at the first byte of the text. A text that its units do not fit lies where it would begin, also where no byte is left.
const texts = s => {
  const length = readUnsigned(s, 0n)
  if (length.number !== 0) return { number: length.number, place: length.place }
  if (length.next + length.value > BigInt(s.length)) return { number: 1, place: s.length }
  const start = Number(length.next)
  const end = start + Number(length.value)
  const text = s.slice(start, end)
  const chars = characters(text)
  if (chars === null) return { number: 6, place: start }
  const unit = numbers(s, BigInt(end))
  const placeOf = k => k < chars.length ? chars[k][0] : text.length
  let k = 0
  const draw = () => {
    const u = unit()
    if (u.number !== 0) return u
    const next = take(chars, k, u.value)
    const place = placeOf(k)
    if (next === null) {
      return { number: 7, place: start + place, what: u.value > chars.slice(k).reduce((sum, [, , n]) => sum + n, 0n) ? 'past the text' : 'in a pair' }
    }
    const value = text.slice(place, placeOf(next))
    k = next
    return { number: 0, value, place: start + place, units: u.value, from: u.from, to: u.to }
  }
  return { number: 0, draw, start }
}

const readTexts = (s, times) => {
  const column = texts(s)
  return column.number !== 0 ? { ...column, values: [] } : draws(column.draw, times)
}

// ---- columns, written

const runs = values => {
  const out = []
  for (const v of values) {
    if (out.length > 0 && out[out.length - 1][0] === v) out[out.length - 1][1]++
    else out.push([v, 1n])
  }
  return out
}

const numberBytes = values => runs(values).flatMap(([v, n]) => n === 1n ? signed(false, v) : [...signed(true, v), ...unsigned(n - 2n)])

const writeNumbers = (values, room) => values.some(v => v > LIMIT) ? nowhere(3) : written(numberBytes(values), room)

const writeDifferences = (values, room) => {
  if (values.some(v => v > CLOCK)) return nowhere(3)
  const steps = values.map((v, k) => k === 0 ? v : v - values[k - 1])
  if (steps.some(d => d < -HALF || d > HALF - 1n)) return nowhere(13)
  const size = d => d < 0n ? -d : d
  return written(runs(steps).flatMap(([d, n]) => {
    const e = 2n * d + (n === 1n ? 0n : 1n)
    return [...signed(e < 0n, size(e)), ...(n === 1n ? [] : unsigned(n - 2n))]
  }), room)
}

const writeBytes = (values, room) => {
  const all = runs([...values])
  return written(all.flatMap(([v, n], k) => k === all.length - 1 ? [v] : [v, ...unsigned(n - 1n)]), room)
}

const writeTexts = (text, units, room) => {
  const chars = characters(text)
  if (chars === null) return nowhere(6)
  if (units.some(u => u > LIMIT)) return nowhere(3)
  let k = 0
  for (const u of units) {
    k = take(chars, k, u)
    if (k === null) return nowhere(7)
  }
  return written([...unsigned(BigInt(text.length)), ...text, ...numberBytes(units)], room)
}

module.exports = {
  nowhere, readUnsigned, readSigned, unsigned, signed, writeUnsigned, writeSigned, numbers, differences, bytes, draws, characters, countUnits, takeText, cutText, texts, readTexts,
  writeNumbers, writeDifferences, writeBytes, writeTexts
}
