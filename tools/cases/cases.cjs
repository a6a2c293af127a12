// A case of the stream for each operation, with the line that is expected: from the model, and compared with lib0 wherever both accept.
'use strict'
const encoding = require('/usr/share/nodejs/lib0/encoding.cjs')
const decoding = require('/usr/share/nodejs/lib0/decoding.cjs')
const model = require('./model.cjs')
const { held } = require('./held.cjs')
const { number, limited, sized, list, roomOf, LONG, SHORT, hex, first, begin, worked } = require('./stream.cjs')

const SAFE = 2n ** 53n - 1n
const same = (what, ours, theirs) => {
  if (ours !== theirs) throw new Error(`the model and lib0 part at ${what}: ${ours} against ${theirs}`)
}

const { add, bad, stream, output, counts, placed, told } = begin()
let compared = 0

// ---- lib0's answers

const lib0Bytes = write => {
  const encoder = encoding.createEncoder()
  write(encoder)
  return encoding.toUint8Array(encoder)
}

// lib0 throws where the bytes end, and where a number grows past 2^53-1 before its last byte.
const attempt = f => {
  try {
    return f()
  } catch (e) {
    return null
  }
}

// lib0 has no number of nine bytes at most and no exact one past 2^53-1: compared below that. Where the bytes end early it throws.
const compareUnsigned = (bytes, at, r) => {
  if (at > BigInt(bytes.length)) return
  const decoder = decoding.createDecoder(Uint8Array.from(bytes))
  decoder.pos = Number(at)
  const theirs = attempt(() => decoding.readVarUint(decoder))
  if (r.number === 0 && r.value <= SAFE) {
    same('an unsigned number', `${r.value} ${r.next}`, `${theirs} ${decoder.pos}`)
    compared++
  }
  if (r.number === 1) same('an end', theirs, null)
}

const compareSigned = (bytes, at, r) => {
  if (r.number !== 0 || r.magnitude > SAFE) return
  const decoder = decoding.createDecoder(Uint8Array.from(bytes))
  decoder.pos = Number(at)
  const theirs = decoding.readVarInt(decoder)
  same('a signed number', `${r.minus} ${r.magnitude} ${r.next}`, `${theirs < 0 || Object.is(theirs, -0)} ${Math.abs(theirs)} ${decoder.pos}`)
  compared++
}

// The values that the model draws are the ones that lib0 draws first.
const compareDrawn = (what, decoder, r) => {
  if (r.values.length === 0) return
  for (const v of r.values) same(what, `${v}`, `${Math.abs(decoder.read())}`)
  compared++
}

// ---- a function an operation, which gives the expected line

const readUnsigned = (bytes, at) => {
  const r = model.readUnsigned(bytes, BigInt(at))
  held(bytes, r, other => model.readUnsigned(other, BigInt(at)))
  compareUnsigned(bytes, BigInt(at), r)
  return add(1, [sized(bytes, LONG), number(at)], [first(r), ...(r.number === 0 ? [r.value, r.next] : [])])
}

const readSigned = (bytes, at) => {
  const r = model.readSigned(bytes, BigInt(at))
  held(bytes, r, other => model.readSigned(other, BigInt(at)))
  compareSigned(bytes, BigInt(at), r)
  return add(2, [sized(bytes, LONG), number(at)], [first(r), ...(r.number === 0 ? [r.minus ? 1 : 0, r.magnitude, r.next] : [])])
}

// A writer's line; `theirs` gives lib0's bytes, and is asked where the model writes.
const writer = (operation, parts, r, theirs) => {
  if (r.number !== 0) return add(operation, parts, [first(r), 'zero'])
  const lib0 = theirs()
  if (lib0 !== null) {
    same(`what operation ${operation} writes`, hex(r.bytes), hex(lib0))
    compared++
  }
  return add(operation, parts, [first(r), hex(r.bytes), 'zero'])
}

const writeUnsigned = (value, room) =>
  writer(3, [number(value), roomOf(room)], model.writeUnsigned(BigInt(value), BigInt(room)),
    () => BigInt(value) > SAFE ? null : lib0Bytes(e => encoding.writeVarUint(e, Number(value))))

const writeSigned = (minus, magnitude, room) =>
  writer(4, [number(minus ? 1 : 0), number(magnitude), roomOf(room)], model.writeSigned(minus, BigInt(magnitude), BigInt(room)),
    () => BigInt(magnitude) > SAFE ? null : lib0Bytes(e => encoding.writeVarInt(e, minus ? -Number(magnitude) : Number(magnitude))))

const readColumn = (operation, what, draw, decoder) => (column, times) => {
  const read = column => model.draws(draw(column), BigInt(times))
  const r = read(column)
  held(column, r, read, { bare: operation === 7 })
  compareDrawn(what, decoder(Uint8Array.from(column)), r)
  return add(operation, [sized(column, SHORT), limited('times', times, 4096)], [first(r), ...r.values])
}
const readNumbers = readColumn(5, 'a number column', model.numbers, c => new decoding.UintOptRleDecoder(c))
const readDifferences = readColumn(6, 'a difference column', model.differences, c => new decoding.IntDiffOptRleDecoder(c))
const readBytes = readColumn(7, 'a byte column', model.bytes, c => new decoding.RleDecoder(c, decoding.readUint8))

const readTexts = (column, times) => {
  const r = model.readTexts(column, BigInt(times))
  held(column, r, other => model.readTexts(other, BigInt(times)))
  const decoder = attempt(() => new decoding.StringDecoder(Uint8Array.from(column)))
  if (r.values.length > 0) {
    for (const text of r.values) same('a text column', hex(text), hex(Buffer.from(decoder.read(), 'utf8')))
    compared++
  }
  if (r.number === 6) same('UTF-8', decoder, null)
  return add(8, [sized(column, SHORT), limited('times', times, 4096)], [first(r), ...r.values.map(hex)])
}

const encoded = (encoder, values) => {
  for (const v of values) encoder.write(v)
  return encoder.toUint8Array ? encoder.toUint8Array() : encoding.toUint8Array(encoder)
}

const writeNumbers = (values, room) =>
  writer(9, [list(values), roomOf(room)], model.writeNumbers(values.map(BigInt), BigInt(room)),
    () => encoded(new encoding.UintOptRleEncoder(), values.map(Number)))

const writeDifferences = (values, room) =>
  writer(10, [list(values), roomOf(room)], model.writeDifferences(values.map(BigInt), BigInt(room)),
    () => encoded(new encoding.IntDiffOptRleEncoder(), values.map(Number)))

const writeBytes = (values, room) =>
  writer(11, [sized(values, LONG), roomOf(room)], model.writeBytes(values, BigInt(room)),
    () => encoded(new encoding.RleEncoder(encoding.writeUint8), values))

// lib0's text column holds just the texts written, so one with text left over is put together from its parts.
const lib0Texts = (text, units) => {
  const string = new TextDecoder('utf-8', { fatal: true, ignoreBOM: true }).decode(Uint8Array.from(text))
  let at = 0
  const texts = units.map(u => {
    const part = string.slice(at, at + Number(u))
    at += Number(u)
    return part
  })
  if (at === string.length) return encoded(new encoding.StringEncoder(), texts)
  return lib0Bytes(e => {
    encoding.writeVarString(e, string)
    encoding.writeUint8Array(e, encoded(new encoding.UintOptRleEncoder(), units.map(Number)))
  })
}

const writeTexts = (text, units, room) =>
  writer(12, [sized(text, SHORT), list(units), roomOf(room)], model.writeTexts(text, units.map(BigInt), BigInt(room)), () => lib0Texts(text, units))

module.exports = {
  readUnsigned, readSigned, writeUnsigned, writeSigned, readNumbers, readDifferences, readBytes, readTexts,
  writeNumbers, writeDifferences, writeBytes, writeTexts, worked, encoded,
  bad, stream, output,
  told: () => [
    `cases of an operation: ${told(counts)}`,
    `refused at another place than 0: ${told(placed)}`,
    `compared with lib0 ${require('/usr/share/nodejs/lib0/package.json').version}: ${compared}`
  ].join('\n')
}
