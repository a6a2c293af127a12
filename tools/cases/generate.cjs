// Writes the stream of operations 1 to 12 and what is expected of it: generate.cjs FOLDER writes FOLDER/numbers.stdin and FOLDER/numbers.stdout.
// The same every time: its random numbers are its own. `run` beside it installs what this needs.
'use strict'
const fs = require('fs')
const path = require('path')
const encoding = require('/usr/share/nodejs/lib0/encoding.cjs')
const model = require('./model.cjs')
const c = require('./cases.cjs')
const { bytes } = require('./stream.cjs')
const { begin, many } = require('./random.cjs')

const folder = process.argv[2]
const p = (...bits) => bits.reduce((sum, k) => sum + 2n ** BigInt(k), 0n)
const utf8 = text => [...Buffer.from(text, 'utf8')]

// ---- random numbers
const { random, pick } = begin(0x9e3779b9)
const wide = bits => many(3, () => BigInt(random(2 ** 31))).reduce((sum, x) => sum * p(31) + x, 0n) % p(bits)
// A number of any length: as many bits as come up, so that short ones are as frequent as long ones.
const anyLength = most => wide(1 + random(most))

// ---- worked by hand, by document 01 and the readings of it in docs/DECISIONS.md
const w = c.worked
// F: 40 is minus zero, so 03 is a count: 0 stands five times. The sixth read finds the end.
w(c.readNumbers(bytes('40 03'), 5), '0 0 0 0 0 0')
w(c.readNumbers(bytes('40 03'), 6), '1@2 0 0 0 0 0')
// G: minus 5 and count 0: 5 twice.
w(c.readNumbers(bytes('45 00'), 2), '0 5 5')
w(c.readNumbers(bytes('45 00'), 3), '1@2 5 5')
// H: e is 3, odd: difference 1, count 1, so three times from 0.
w(c.readDifferences(bytes('03 01'), 3), '0 1 2 3')
// I: e is 10: difference 5, once. e is -1, odd: -1/2 rounded down is -1, twice. Each from the value before.
w(c.readDifferences(bytes('0a 41 00'), 3), '0 5 4 3')
// J: e is -4: difference -2 from 0 is no clock.
w(c.readDifferences(bytes('44'), 1), '3@0')
// K: 4 with count 1: twice. Nothing is left after 0: without end.
w(c.readBytes(bytes('04 01 00'), 6), '0 4 4 0 0 0 0')
// L: one character of two units. Unit length 1 ends in the pair, 2 takes it, 3 runs past it.
w(c.readTexts(bytes('04 f09f9880 01'), 1), '7@1')
w(c.readTexts(bytes('04 f09f9880 02'), 1), '0 f09f9880')
w(c.readTexts(bytes('04 f09f9880 03'), 1), '7@1')
// The same, written: F to L's columns come back.
w(c.writeNumbers([0, 0, 0, 0, 0], 2), '0 4003 zero')
w(c.writeNumbers([5, 5], 65536), '0 4500 zero')
w(c.writeDifferences([1, 2, 3], 2), '0 0301 zero')
w(c.writeDifferences([5, 4, 3], 2), '10@0 zero')
w(c.writeBytes([4, 4, 0, 0, 0, 0], 3), '0 040100 zero')
w(c.writeTexts(bytes('f09f9880'), [1], 9), '7@0 zero')
w(c.writeTexts(bytes('f09f9880'), [2], 9), '0 04f09f988002 zero')
w(c.writeTexts(bytes('f09f9880'), [3], 9), '7@0 zero')
// A run's count is read before its value's limit is looked at (c0 80 .. 20 is minus 2^53): the end first, then 3.
w(c.readNumbers(bytes('c0 80 80 80 80 80 80 20'), 1), '1@8')
w(c.readNumbers(bytes('c0 80 80 80 80 80 80 20 00'), 1), '3@0')
// e is 2^31 + 1, over its limit, and its count is missing: e is looked at first.
w(c.readDifferences(bytes('81 80 80 80 10'), 1), '3@0')
// e is 2^31 - 1, the largest: the difference is 2^30 - 1, and the third time leads past 2^31 - 1.
w(c.readDifferences(bytes('bf ff ff ff 0f 01'), 3), '3@0 1073741823 2147483646')
// e is -2^31, the smallest: from 2^31 - 2, reached by two steps of 2^30 - 1, it leads to 2^30 - 2.
w(c.readDifferences(bytes('bf ff ff ff 0f 00 c0 80 80 80 10'), 3), '0 1073741823 2147483646 1073741822')
// Nine bytes that all say more are 2, eight are 1, and a tenth byte is never looked at.
w(c.readUnsigned(bytes('80 80 80 80 80 80 80 80 80'), 0), '2@0')
w(c.readUnsigned(bytes('80 80 80 80 80 80 80 80'), 0), '1@8')
w(c.readUnsigned(bytes('ff ff ff ff ff ff ff ff 7f 05'), 0), '0 9223372036854775807 9')
w(c.readSigned(bytes('ff ff ff ff ff ff ff ff 7f'), 0), '0 1 4611686018427387903 9')
// Where lib0 goes on and document 01 does not (docs/DIFFERENCES.md): ten bytes, a value of 2^53, a count over its limit, e of 2^31, a difference of 2^30.
w(c.readUnsigned(bytes('80 80 80 80 80 80 80 80 80 00'), 0), '2@0')
w(c.readUnsigned(bytes('80 80 80 80 80 80 80 80 80 80 01'), 0), '2@0')
w(c.readUnsigned(bytes('ff ff ff ff ff ff ff 1f'), 0), '0 18014398509481983 8')
w(c.readNumbers(bytes('42 ff ff ff ff 0f 05'), 2), '3@1')
w(c.readNumbers(bytes('42'), 2), '1@1')
w(c.readNumbers(bytes('80 80 80 80 80 80 80 20'), 1), '3@0')
w(c.readNumbers(bytes('42 fe ff ff ff 07'), 1), '3@1')
w(c.readDifferences(bytes('80 80 80 80 10'), 1), '3@0')
w(c.writeDifferences([0, p(30)], 9), '13@0 zero')
// Minus zero keeps its sign, in a longer spelling too.
w(c.readSigned(bytes('40'), 0), '0 1 0 1')
w(c.readSigned(bytes('05 c0 80 00'), 1), '0 1 0 4')
w(c.writeSigned(true, 0, 1), '0 40 zero')
// Ten bytes are not a number: 3, and before the room is looked at.
w(c.writeUnsigned(p(63), 0), '3@0 zero')
w(c.writeUnsigned(p(63) - 1n, 9), '0 ffffffffffffffff7f zero')
w(c.writeSigned(false, p(62), 9), '3@0 zero')
w(c.writeSigned(true, p(62) - 1n, 9), '0 ffffffffffffffff7f zero')
// Column writers go by number, not by position: 2^31 is over the limit, and the 2^30 before it out of range.
w(c.writeDifferences([p(30)], 9), '13@0 zero')
w(c.writeDifferences([p(30), p(31)], 9), '3@0 zero')
// Text: 6, 3, 7, 10. The text is not UTF-8; a length over 2^53 - 1; one over the text; a room one short.
w(c.writeTexts(bytes('ff'), [p(53), 1], 0), '6@0 zero')
w(c.writeTexts(utf8('hi'), [3, p(53)], 0), '3@0 zero')
w(c.writeTexts(utf8('hi'), [3], 0), '7@0 zero')
w(c.writeTexts(utf8('hi'), [1], 3), '10@0 zero')
// Left-over text is kept.
w(c.writeTexts(utf8('hi'), [1], 4), '0 02686901 zero')
// A text column of no bytes has no length; one of no texts is whole.
w(c.readTexts([], 0), '1@0')
w(c.readTexts(bytes('00'), 0), '0')
w(c.readTexts(bytes('00'), 1), '1@1')

// ---- 1 and 2: every boundary in every spelling that nine bytes allow, cut short, and from other places

const edges = [0n, 1n, 63n, 64n, 127n, 128n, 8191n, 8192n, 16383n, 16384n, p(31) - 1n, p(31), p(32), p(53) - 1n, p(53), p(56), p(62) - 1n, p(62), p(63) - 1n]

// A longer spelling: the last byte says more, and empty ones follow.
const padded = (spelling, size) => {
  const out = [...spelling]
  while (out.length < size) {
    out[out.length - 1] |= 128
    out.push(0)
  }
  return out
}

for (const x of edges) {
  const short = model.unsigned(x)
  for (const size of new Set([short.length, short.length + 1, 9, 10])) c.readUnsigned(padded(short, size), 0)
  c.readUnsigned([255, 3, ...short, 7], 2)
  c.readUnsigned(short.slice(0, -1), 0)
}
for (const x of edges.filter(x => x < p(62))) {
  for (const minus of [false, true]) {
    const short = model.signed(minus, x)
    for (const size of new Set([short.length, short.length + 1, 9, 10])) c.readSigned(padded(short, size), 0)
    c.readSigned([255, 3, ...short, 7], 2)
    c.readSigned(short.slice(0, -1), 0)
  }
}
for (const read of [c.readUnsigned, c.readSigned]) {
  for (const at of [0n, 1n, 2n, p(32), p(63), p(64) - 1n]) read([5], at)
  read([], 0n)
  read([], p(64) - 1n)
  for (let k = 1; k < 12; k++) read(Array(k).fill(255), 0n)
  for (let k = 1; k < 12; k++) read([...Array(k).fill(192), 64], 0n)
  for (let k = 0; k < 60; k++) read(many(1 + random(14), () => random(4) === 0 ? random(128) : 128 + random(128)), BigInt(random(6)))
}
for (let k = 0; k < 40; k++) c.readUnsigned(model.unsigned(anyLength(63)), 0)
for (let k = 0; k < 40; k++) c.readSigned(model.signed(random(2) === 1, anyLength(62)), 0)
// The longest bytes that the program asks: a number at their very end.
c.readUnsigned([...Array(524287).fill(128), 9], 524287)
c.readSigned([...Array(70000).fill(200), 73], 70000)

// ---- 3 and 4: every boundary with a room too small, exact and too large

for (const x of [...edges, p(63), p(64) - 1n]) {
  const size = model.unsigned(x).length
  for (const room of new Set([0, size - 1, size, size + 1, 9, 10])) c.writeUnsigned(x, room)
}
for (const x of [...edges, p(63), p(64) - 1n]) {
  const size = model.signed(false, x).length
  for (const room of new Set([0, size - 1, size, size + 1])) {
    c.writeSigned(false, x, room)
    c.writeSigned(true, x, room)
  }
}
for (let k = 0; k < 40; k++) c.writeUnsigned(anyLength(64), pick([9, 10, 100]))
for (let k = 0; k < 40; k++) c.writeSigned(random(2) === 1, anyLength(64), pick([9, 10, 100]))
c.writeUnsigned(300, 65536)
c.writeSigned(true, 300, 65536)

// ---- columns: sequences with runs short and long, as lib0 writes them

const sequence = (length, value) => {
  const out = []
  while (out.length < length) {
    const v = value(out)
    for (let n = pick([1, 1, 1, 2, 2, 3, 5, 40, 200]); n > 0 && out.length < length; n--) out.push(v)
  }
  return out
}
// Clocks: from the last one by a difference that stands for a while, back into range where it would leave it.
const clocks = length => {
  const out = []
  let last = 0n
  while (out.length < length) {
    let d = anyLength(pick([3, 10, 29])) * pick([1n, -1n])
    for (let n = pick([1, 1, 2, 3, 10, 60]); n > 0 && out.length < length; n--) {
      if (last + d < 0n || last + d >= p(31)) d = -d
      if (last + d < 0n || last + d >= p(31)) break
      last += d
      out.push(last)
    }
  }
  return out
}
const lengths = k => pick([0, 1, 2, 3, 5, 8, 13, 30, 80, k % 25 === 0 ? 700 : 20])
const lib0 = {
  numbers: values => [...c.encoded(new encoding.UintOptRleEncoder(), values.map(Number))],
  differences: values => [...c.encoded(new encoding.IntDiffOptRleEncoder(), values.map(Number))],
  bytes: values => [...c.encoded(new encoding.RleEncoder(encoding.writeUint8), values)]
}
// Characters of one to four bytes, at the edges of each length and beside the surrogates.
const letters = ['a', 'z', ' ', '\u0000', '\u007f', '\u0080', 'é', '\u07ff', '\u0800', '€', '\ud7ff', '\ue000', '\ufeff', '\uffff',
  '\u{10000}', '😀', '𝄞', '\u{10ffff}']
const string = length => many(length, () => pick(letters)).join('')

// Each whole and with one read more, some with every prefix, some damaged in a byte.
const damaged = column => {
  const out = [...column]
  const k = random(out.length)
  out[k] = pick([random(256), out[k] ^ 128, out[k] ^ 64, out[k] ^ (1 << random(8)), 255])
  return out
}
const exercise = (read, column, times, k) => {
  read(column, times)
  read(column, times + 1)
  if (column.length === 0) return
  if (k % 8 === 0 && column.length <= 24) for (let n = 0; n < column.length; n++) read(column.slice(0, n), Math.min(times + 1, 300))
  if (times <= 300) read(damaged(column), times + 3)
}
for (let k = 0; k < 60; k++) {
  const values = sequence(lengths(k), () => anyLength(pick([2, 7, 14, 31, 53])))
  const column = lib0.numbers(values)
  exercise(c.readNumbers, column, values.length, k)
  c.writeNumbers(values, pick([column.length, column.length + 1, 65536]))
  if (column.length > 0) c.writeNumbers(values, column.length - 1)
}
for (let k = 0; k < 60; k++) {
  const values = clocks(lengths(k))
  const column = lib0.differences(values)
  exercise(c.readDifferences, column, values.length, k)
  c.writeDifferences(values, pick([column.length, column.length + 1, 65536]))
  if (column.length > 0) c.writeDifferences(values, column.length - 1)
}
for (let k = 0; k < 60; k++) {
  const values = sequence(lengths(k), () => pick([0, 1, 4, 127, 128, 255, random(256)]))
  const column = lib0.bytes(values)
  exercise(c.readBytes, column, values.length, k)
  c.writeBytes(values, pick([column.length, column.length + 1, 65536]))
  if (column.length > 0) c.writeBytes(values, column.length - 1)
}
for (let k = 0; k < 60; k++) {
  const texts = sequence(Math.min(lengths(k), 80), () => string(pick([0, 1, 1, 2, 5, 20])))
  const column = [...c.encoded(new encoding.StringEncoder(), texts)]
  exercise(c.readTexts, column, texts.length, k)
  const text = utf8(texts.join(''))
  const units = texts.map(t => t.length)
  c.writeTexts(text, units, pick([column.length, column.length + 1, 65536]))
  c.writeTexts(text, units, column.length - 1)
  // Left-over text, a length more than there is text, and cuts wherever they fall.
  c.writeTexts([...text, ...utf8(string(3))], units, 65536)
  c.writeTexts(text, [...units, 1], 65536)
  if (text.length > 0) c.writeTexts(damaged(text), units, 65536)
  const cuts = many(4, () => random(6))
  c.writeTexts(text, cuts, 65536)
  c.readTexts([...model.unsigned(BigInt(text.length)), ...text, ...lib0.numbers(cuts)], 5)
}

// ---- the boundaries of columns

// A run's count in four columns: 2147483645 stands, 2147483646 does not, longer spellings do, ten bytes do not, and counts end early.
const countEdges = [0n, 1n, 127n, 128n, p(31) - 3n, p(31) - 2n, p(31) - 1n, p(31), p(53), p(63) - 1n]
for (const n of countEdges) {
  for (const count of [model.unsigned(n), padded(model.unsigned(n), 9), padded(model.unsigned(n), 10), [...model.unsigned(n).slice(0, -1), 128]]) {
    c.readNumbers([0x47, ...count], 4)
    c.readDifferences([0x03, ...count], 4)
    c.readBytes([0x09, ...count], 4)
    c.readTexts([4, ...utf8('abcd'), 0x41, ...count], 4)
  }
}
// A number column's values, once and as a run, about 2^53 and up to the longest.
for (const x of [...edges.filter(x => x < p(62)), p(53) + 1n]) {
  c.readNumbers([...model.signed(false, x), 5], 2)
  c.readNumbers([...model.signed(true, x), 0, 5], 3)
  c.readNumbers([...model.signed(true, x), ...model.unsigned(p(31) - 2n)], 1)
  c.readNumbers([3, ...padded(model.signed(false, x), 9), 5], 3)
  c.readTexts([3, ...utf8('a€b').slice(0, 3), ...model.signed(false, x)], 2)
  c.readTexts([5, ...utf8('a€b'), 1, ...model.signed(true, x), 0], 3)
}
for (const x of [p(53) - 1n, p(53), p(53) + 1n, p(62), p(63), p(64) - 1n]) {
  for (const values of [[x], [x, x], [1n, x, 1n]]) {
    c.writeNumbers(values, 65536)
    c.writeNumbers(values, 0)
    c.writeTexts(utf8('abc'), values, 65536)
    c.writeTexts(bytes('61 80'), values, 0)
  }
}
// e about its limits, from 0 and from clocks that it leads away from, with and without its count.
const es = [0n, 1n, 2n, 3n, p(30), p(31) - 3n, p(31) - 2n, p(31) - 1n, p(31), p(31) + 1n, p(32), p(53), p(62) - 1n]
for (const e of es) {
  for (const minus of [false, true]) {
    for (const before of [[], model.signed(false, 2n), [...model.signed(false, p(31) - 1n), 0]]) {
      const start = before.length === 0 ? 0 : before.length < 5 ? 1 : 2
      c.readDifferences([...before, ...model.signed(minus, e)], start + 1)
      c.readDifferences([...before, ...model.signed(minus, e), 1, 2], start + 4)
    }
    c.readDifferences([...padded(model.signed(minus, e), 9), 1], 3)
    c.readDifferences([...padded(model.signed(minus, e), 10), 1], 3)
  }
}
// Differences written about their limits, and clocks about theirs: 3 before 13 before 10, by number.
const d = p(30)
for (const values of [[d - 1n], [d], [d - 1n, 0n], [d - 1n, 2n * d - 2n], [d - 1n, 2n * d - 1n], [d - 1n, 2n * d - 1n, 0n], [d - 1n, 2n * d - 2n, d - 2n],
  [d - 1n, 2n * d - 2n, d - 3n], [d - 1n, 2n * d - 2n, 2n * d - 1n, d - 1n], [d - 1n, 2n * d - 2n, 2n * d - 1n, d - 2n], [d, p(31)], [p(31), d], [p(31) - 1n], [p(31)],
  [0n, p(31) - 1n, p(31)], [p(64) - 1n], [5n, p(63), 5n], [0n, 0n, d], [1n, 0n], [0n]]) {
  for (const room of [0, 1, 5, 6, 65536]) c.writeDifferences(values, room)
}
// The byte column: one value has no count and no end, none is nothing, and a zero byte after the value is a count.
for (const column of ['', '00', 'ff', '05 00', '05 00 06', '05 00 05', '05 01 06 80', '05 01 06 ff ff', '05 80', '05 80 00 06', '05 00 06 00 07 00']) {
  for (const times of [0, 1, 2, 3, 9]) c.readBytes(bytes(column), times)
}
// The text column's own length, cut short, too long, and not UTF-8 in every way.
for (const start of ['', '80', '01', '02 61', '03 61 62', 'ff ff ff ff ff ff ff ff 7f 61', '80 80 80 80 80 80 80 80 80 00', '81 00 61', '80 00', '82 80 80 80 80 80 80 80 00 61 62']) {
  for (const times of [0, 1, 2]) c.readTexts([...bytes(start), 1], times)
  c.readTexts(bytes(start), 1)
}
const broken = ['80', 'bf', 'c0 80', 'c1 bf', 'c2', 'c2 41', 'df c0', 'e0 80 80', 'e0 9f bf', 'e0 a0', 'e2 82', 'e2 28 a1', 'ed a0 80', 'ed bf bf', 'f0 80 80 80', 'f0 8f bf bf',
  'f0 9f 98', 'f0 9f 98 41', 'f4 90 80 80', 'f5 80 80 80', 'f8 88 80 80 80', 'fe', 'ff', 'ef bf', 'ed a0 bd ed b8 80', '61 80', 'c3 a9 a9']
for (const b of broken) {
  c.readTexts([bytes(b).length, ...bytes(b), 1], 1)
  c.readTexts([bytes(b).length + 2, 0x61, ...bytes(b), 0x62, 1, 0xff], 0)
  c.writeTexts(bytes(b), [1], 65536)
  c.writeTexts([0x61, ...bytes(b), 0x62], [p(60)], 0)
}
const whole = ['c2 80', 'df bf', 'e0 a0 80', 'ed 9f bf', 'ee 80 80', 'ef bf bf', 'ef bb bf', 'f0 90 80 80', 'f4 8f bf bf']
for (const b of whole) {
  for (const units of [0, 1, 2, 3]) {
    c.readTexts([bytes(b).length + 1, ...bytes(b), 0x7a, units, 1], 2)
    c.writeTexts([...bytes(b), 0x7a], [units, 1], 65536)
  }
}
// Units: none at all, more than the text, in the pair, a sum that no 64 bits hold.
for (const units of [[], [0], [0, 0, 0], [1], [2], [3], [1, 2], [1, 2, 1], [2, 2], [1, 1, 1], [4], [5], [p(31)], [p(53) - 1n], many(2100, () => p(53) - 1n)]) {
  c.writeTexts(utf8('a😀b'), units, 65536)
  c.readTexts([6, ...utf8('a😀b'), ...lib0.numbers(units)], Math.min(units.length + 1, 4096))
}

// ---- the largest that the program asks
c.readNumbers(lib0.numbers(Array(5000).fill(9)), 4096)
c.readNumbers(lib0.numbers(many(4096, k => k * 1000003)), 4096)
c.readDifferences(lib0.differences(many(4096, k => k * k)), 4096)
c.readBytes([7, 5], 4096)
c.readBytes(lib0.bytes(many(32768, k => k % 251)), 4096)
c.readTexts([...c.encoded(new encoding.StringEncoder(), many(4096, k => '😀é€z'.slice(0, 2 + k % 3)))], 4096)
c.readTexts([...model.unsigned(65530n), ...Array(65530).fill(0x61), 1], 2)
c.writeNumbers(many(4096, k => k * 1000003), 65536)
c.writeNumbers(Array(4096).fill(p(53) - 1n), 10)
c.writeDifferences(many(4096, k => k * k), 65536)
c.writeBytes(many(524288, k => k % 1000 < 500 ? 3 : 200), 65536)
c.writeBytes(many(40000, k => k % 2), 65536)
c.writeTexts(utf8('😀é€z'.repeat(6000)), Array(4096).fill(5), 65536)

// The stream ends in what is no case: operation 0 is none. What follows it is not looked at.
c.bad([0, 1, 2, 3])

fs.writeFileSync(path.join(folder, 'numbers.stdin'), c.stream())
fs.writeFileSync(path.join(folder, 'numbers.stdout'), c.output())
console.log(c.told())
