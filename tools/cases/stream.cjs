// A stream of the case program, and the lines that it is expected to print, as they grow.
'use strict'

const number = n => {
  const b = Buffer.alloc(8)
  b.writeBigUInt64LE(BigInt(n))
  return b
}
// What the program does not ask would end its stream.
const asked = (what, n, most) => {
  if (n > most) throw new Error(`${what}: ${n} is not asked`)
}
const limited = (what, n, most) => {
  asked(what, BigInt(n), BigInt(most))
  return number(n)
}
const sized = (bytes, most) => {
  asked('bytes', bytes.length, most)
  const b = Buffer.alloc(4)
  b.writeUInt32LE(bytes.length)
  return Buffer.concat([b, Buffer.from(bytes)])
}
const list = values => sized(Buffer.concat(values.map(number)), 4096 * 8)
const roomOf = n => limited('room', n, 65536)
const LONG = 524288
const SHORT = 65536

const hex = bytes => bytes.length === 0 ? '-' : Buffer.from(bytes).toString('hex')
const bytes = text => [...Buffer.from(text.replace(/ /g, ''), 'hex')]

// The first word of a line: 0, or a refusal's number and place.
const first = ({ number, place }) => {
  if (number === 0) return '0'
  if (!Number.isSafeInteger(place)) throw new Error(`refused ${number} at ${place}`)
  return `${number}@${place}`
}

// `add` gives the expected line back. `counts` has how many cases an operation has, `refused` how many lines begin with a number, `placed` how many of these
// have a place other than 0.
const begin = () => {
  const chunks = []
  const lines = []
  const counts = new Map()
  const refused = new Map()
  const placed = new Map()
  const grow = (map, key) => map.set(key, (map.get(key) ?? 0) + 1)
  return {
    add: (operation, parts, words) => {
      chunks.push(Buffer.from([operation]), ...parts)
      lines.push(words.join(' '))
      grow(counts, operation)
      const [number, place = '0'] = words[0].split('@')
      grow(refused, Number(number))
      if (place !== '0') grow(placed, Number(number))
      return words.join(' ')
    },
    bad: bytes => {
      chunks.push(Buffer.from(bytes))
      lines.push('bad stream')
    },
    stream: () => Buffer.concat(chunks),
    output: () => lines.join('\n') + '\n',
    counts,
    refused,
    placed,
    told: map => [...map].sort(([a], [b]) => a - b).map(([o, n]) => `${o}: ${n}`).join('  ')
  }
}

// A case worked by hand: the line is written beside it. `unplaced` leaves out its place, where the bytes are not ours.
const worked = (line, expected) => {
  if (line !== expected) throw new Error(`worked by hand: ${expected}, by the model: ${line}`)
}
const unplaced = line => line.replace(/^(\d+)@\d+/, '$1')

module.exports = { number, limited, sized, list, roomOf, LONG, SHORT, hex, bytes, first, begin, worked, unplaced }
