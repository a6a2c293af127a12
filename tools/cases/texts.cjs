// Writes the stream of operations 30 to 32, the text calls, and what is expected of it: texts.cjs FOLDER writes FOLDER/texts.stdin and FOLDER/texts.stdout.
// The expectation is from the model, which has characters by the Unicode Standard's table, and is held to JavaScript's own strings wherever a text is UTF-8.
// The same every time: its random numbers are its own.
'use strict'
const fs = require('fs')
const path = require('path')
const model = require('./model.cjs')
const { number, sized, LONG, first, begin, bytes, worked: w } = require('./stream.cjs')
const { begin: beginRandom, many } = require('./random.cjs')

const folder = process.argv[2]
const { random, pick } = beginRandom(0x51ed270b)
const { add, stream, output, counts, told } = begin()
const utf8 = text => [...Buffer.from(text, 'utf8')]
let compared = 0
const same = (what, ours, theirs) => {
  if (ours !== theirs) throw new Error(`the model and JavaScript part at ${what}: ${ours} against ${theirs}`)
  compared++
}
const decoded = text => {
  try {
    return new TextDecoder('utf-8', { fatal: true, ignoreBOM: true }).decode(Uint8Array.from(text))
  } catch (e) {
    return null
  }
}
// Half of a pair, at either end.
const torn = (string, units) => units > 0 && units < string.length && string.codePointAt(units - 1) > 0xffff

const countUnits = text => {
  const r = model.countUnits(text)
  const string = decoded(text)
  same('whether a text is UTF-8', r.number === 0, string !== null)
  if (r.number === 0) same('units', r.units, BigInt(string.length))
  return add(30, [sized(text, LONG)], [first(r), ...(r.number === 0 ? [r.units] : [])])
}

const takeText = (text, at, units) => {
  const r = model.takeText(text, BigInt(at), BigInt(units))
  const string = decoded(text.slice(Number(at)))
  if (string !== null && BigInt(at) <= BigInt(text.length)) {
    const past = BigInt(units) > BigInt(string.length)
    same('whether units can be taken', r.number === 0, !past && !torn(string, Number(units)))
    if (r.number === 0) same('a text', r.bytes, Buffer.from(string.slice(0, Number(units)), 'utf8').length)
  }
  return add(31, [sized(text, LONG), number(at), number(units)], [first(r), ...(r.number === 0 ? [`${at}+${r.bytes}`] : [])])
}

const cutText = (text, units) => {
  const r = model.cutText(text, BigInt(units))
  const string = decoded(text)
  if (string === null) same('a cut of what is not UTF-8', r.number, 6)
  else if (BigInt(units) > BigInt(string.length)) same('a cut past the text', r.number, 7)
  else if (torn(string, Number(units))) same('a cut in a pair', r.number, 9)
  else same('a cut', `${r.number} ${r.bytes}`, `0 ${Buffer.from(string.slice(0, Number(units)), 'utf8').length}`)
  return add(32, [sized(text, LONG), number(units)], [first(r), ...(r.number === 0 ? [r.bytes] : [])])
}

// ---- worked by hand: 'a', an emoji of four bytes and two units, 'é' of two bytes
const text = bytes('61 f09f9880 c3a9')
w(countUnits([]), '0 0')
w(countUnits(text), '0 4')
w(countUnits(bytes('61 80')), '6@0')
w(takeText(text, 0, 1), '0 0+1')
w(takeText(text, 1, 2), '0 1+4')
w(takeText(text, 1, 1), '7@0')
w(takeText(text, 0, 4), '0 0+7')
w(takeText(text, 0, 5), '7@0')
w(takeText(text, 5, 1), '0 5+2')
// from inside a character nothing can be taken, but no units are always there, also past the text
w(takeText(text, 2, 1), '7@0')
w(takeText(text, 2, 0), '0 2+0')
w(takeText(text, 99, 0), '0 99+0')
w(takeText(text, 99, 1), '7@0')
// what stands behind what is taken is not looked at
w(takeText(bytes('61 62 ff'), 0, 2), '0 0+2')
w(takeText(bytes('61 62 ff'), 0, 3), '7@0')
w(cutText(text, 0), '0 0')
w(cutText(text, 1), '0 1')
w(cutText(text, 2), '9@0')
w(cutText(text, 3), '0 5')
w(cutText(text, 4), '0 7')
w(cutText(text, 5), '7@0')
// a cut looks at the whole text, before its units
w(cutText(bytes('61 62 ff'), 1), '6@0')
w(cutText(bytes('61 62 ff'), 9), '6@0')

// ---- every place and every number of units, of short texts with characters at the edges of each length, whole and damaged
const letters = ['a', 'z', '\u0000', '\u007f', '\u0080', 'é', '\u07ff', '\u0800', '€', '\ud7ff', '\ue000', '\ufeff', '\uffff', '\u{10000}', '😀', '\u{10ffff}']
const all = text => {
  countUnits(text)
  for (let units = 0; units <= text.length + 1; units++) {
    cutText(text, units)
    for (let at = 0; at <= text.length + 1; at++) takeText(text, at, units)
  }
}
for (const a of letters) all(utf8(a))
for (let k = 0; k < 40; k++) all(utf8(many(1 + random(3), () => pick(letters)).join('')))
for (const b of ['80', 'c0 80', 'c2', 'c2 41', 'e0 9f bf', 'e0 a0', 'ed a0 80', 'f0 8f bf bf', 'f0 9f 98', 'f0 9f 98 41', 'f4 90 80 80', 'f5 80 80 80', 'ff', '61 c3', 'c3 a9 a9', 'ed a0 bd ed b8 80']) all(bytes(b))
// longer ones, cut and taken here and there, and damaged in a byte
for (let k = 0; k < 150; k++) {
  const whole = utf8(many(random(200), () => pick(letters)).join(''))
  const spoilt = whole.map((b, i) => i === whole.length >> 1 ? random(256) : b)
  for (const t of [whole, spoilt]) {
    countUnits(t)
    for (let n = 0; n < 4; n++) {
      const units = random(t.length + 2)
      cutText(t, units)
      takeText(t, random(t.length + 2), units >> random(4))
    }
  }
}
// numbers up to the largest, and the largest text that the program asks
for (const n of [2n ** 32n, 2n ** 53n, 2n ** 63n, 2n ** 64n - 1n]) {
  takeText(text, n, 0)
  takeText(text, n, 1)
  takeText(text, 0, n)
  cutText(text, n)
}
const long = utf8('😀é€z'.repeat(40000))
countUnits(long)
cutText(long, 200000)
cutText(long, 199999)
takeText(long, 10, 100000)
countUnits(Array(LONG).fill(0x61))

fs.writeFileSync(path.join(folder, 'texts.stdin'), stream())
fs.writeFileSync(path.join(folder, 'texts.stdout'), output())
console.log(`cases of an operation: ${told(counts)}\ncompared with JavaScript's strings: ${compared}`)
