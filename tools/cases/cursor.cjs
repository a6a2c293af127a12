// Bytes with a place in them, drawn from one after another, and the refusal that ends the drawing: what reading has in common, in plain JavaScript.
'use strict'
const model = require('./model.cjs')

// Reading is one sequence of draws, and the first refused one decides: it is thrown, with its number and its place in the update (W-201). Then, for whoever
// compares: `column` says that a column could not answer, or was not whole; `what` names what was drawn, and `value` what it was.
class Refusal extends Error {
  constructor (number, place, more) {
    super(`refused ${number} at ${place}`)
    this.refusal = { number, place, column: false, what: null, value: null, ...more }
  }
}
const refuse = (number, place, more) => {
  throw new Refusal(number, place, more)
}
// What a reading gives, with number 0, or just its refusal.
const answer = read => {
  try {
    return { number: 0, ...read() }
  } catch (e) {
    if (!(e instanceof Refusal)) throw e
    return e.refusal
  }
}
// `place` is where the value comes from: a number's first byte, or its run's.
const within = (value, most, place, what) => value > most ? refuse(3, place, { what, value }) : value

// ---- bytes with a place in them

// What is read is marked: `mark` gets where it begins and where it ends.
const cursor = (s, at, mark = () => {}) => {
  const to = next => {
    mark(at, next)
    at = next
  }
  const unsigned = what => {
    const r = model.readUnsigned(s, BigInt(at))
    if (r.number !== 0) refuse(r.number, r.place, { what })
    to(Number(r.next))
    return r.value
  }
  // That many bytes of any number, as { place, bytes }.
  const part = size => {
    if (BigInt(at) + size > BigInt(s.length)) refuse(1, s.length)
    const it = { place: at, bytes: Number(size) }
    to(at + it.bytes)
    return it
  }
  return {
    // Where the next thing that is read has its first byte.
    place: () => at,
    byte: () => {
      if (at >= s.length) refuse(1, s.length)
      to(at + 1)
      return s[at - 1]
    },
    unsigned,
    signed: what => {
      const r = model.readSigned(s, BigInt(at))
      if (r.number !== 0) refuse(r.number, r.place, { what })
      to(Number(r.next))
      return r
    },
    limited: (most, what) => {
      const place = at
      return within(unsigned(), most, place, what)
    },
    part,
    // A text in line: byte length, bytes, and only then UTF-8.
    text: () => {
      const it = part(unsigned())
      const characters = model.characters(s.slice(it.place, it.place + it.bytes))
      if (characters === null) refuse(6, it.place)
      return { part: it, units: characters.reduce((sum, [, , units]) => sum + units, 0n) }
    },
    // What a part has in it.
    bytesOf: part => s.slice(part.place, part.place + part.bytes),
    // A column is passed, and its own draws mark what they read.
    column: size => {
      if (BigInt(at) + size > BigInt(s.length)) refuse(1, s.length)
      const it = { place: at, bytes: Number(size) }
      at += it.bytes
      return it
    }
  }
}

module.exports = { refuse, answer, within, cursor }
