// lib0's any-values as document 02 (W-202) and docs/DECISIONS.md have them, in plain JavaScript: drawn one after another, and what they mean. Made without
// our Rattle code and without lib0.
'use strict'
const { refuse, answer, cursor } = require('./cursor.cjs')

const DEPTH = 16 // arrays and objects open at once
const SAFE = 2n ** 53n - 1n

// What JavaScript does not have: an integer past 2^53-1; an object with the key "__proto__", which there sets what the object inherits.
const BEYOND = Symbol('beyond')
const integer = ({ minus, magnitude }) => magnitude > SAFE ? BEYOND : minus ? -Number(magnitude) : Number(magnitude)
const view = bytes => new DataView(Uint8Array.from(bytes).buffer)
const string = bytes => Buffer.from(bytes).toString('utf8')

// One value from `rest`, inside so many arrays and objects. An unknown tag is refused at `blame`; the seventeenth array or object at its tag, before its count.
const value = (rest, open, blame) => {
  const place = rest.place()
  const tag = rest.byte()
  const bytes = size => rest.bytesOf(rest.part(size))
  const counted = (of, one) => {
    if (open === DEPTH) refuse(3, place, { what: 'depth' })
    for (let count = rest.unsigned('count'); count > 0n; count--) one()
    return of
  }
  switch (tag) {
    case 127: return undefined
    case 126: return null
    case 125: return integer(rest.signed('integer'))
    case 124: return view(bytes(4n)).getFloat32(0)
    case 123: return view(bytes(8n)).getFloat64(0)
    case 122: return view(bytes(8n)).getBigInt64(0)
    case 121: return false
    case 120: return true
    case 119: return string(rest.bytesOf(rest.text().part))
    case 118: {
      const entries = new Map()
      return counted(entries, () => {
        const key = string(rest.bytesOf(rest.text().part))
        const held = value(rest, open + 1, blame)
        entries.set(key, key === '__proto__' ? BEYOND : held)
      })
    }
    case 117: {
      const entries = []
      return counted(entries, () => entries.push(value(rest, open + 1, blame)))
    }
    case 116: return Uint8Array.from(bytes(rest.unsigned('byte length')))
    default: return refuse(5, blame, { what: 'tag', value: tag })
  }
}

// So many values: the part that they take.
const passed = (rest, count, blame) => {
  const place = rest.place()
  for (; count > 0n; count--) value(rest, 0, blame)
  return { place, bytes: rest.place() - place }
}

// ---- bytes that hold so many values, which read

const whole = read => {
  const r = answer(read)
  if (r.number !== 0) throw new Error(`values that do not read: ${r.number} at ${r.place}`)
  return r
}
const values = (bytes, count) => whole(() => {
  const rest = cursor(bytes, 0)
  const all = []
  for (; count > 0n; count--) all.push(value(rest, 0, 0))
  return { all }
}).all
// Without the first entries.
const dropped = (bytes, cut) => whole(() => {
  const rest = cursor(bytes, 0)
  passed(rest, cut, 0)
  return { left: bytes.slice(rest.place()) }
}).left

// ---- a value in words, equal exactly for equal values: the model's and JavaScript's, where an object's keys have no order

const shown = v => {
  switch (typeof v) {
    case 'undefined': return 'undefined'
    case 'symbol': return '\u0000'
    case 'bigint': return `${v}n`
    case 'string': return JSON.stringify(v)
    case 'object': break
    default: return Object.is(v, -0) ? '-0' : `${v}`
  }
  if (v === null) return 'null'
  if (v instanceof Uint8Array) return `<${Buffer.from(v).toString('hex')}>`
  if (Array.isArray(v)) return `[${v.map(shown).join()}]`
  const entries = [...(v instanceof Map ? v : Object.entries(v))].sort(([a], [b]) => a < b ? -1 : 1)
  return `{${entries.map(([key, x]) => `${JSON.stringify(key)}:${shown(x)}`).join()}}`
}
// Whether JavaScript does not have it: nothing else is shown with a NUL.
const isBeyond = text => text.includes('\u0000')

module.exports = { passed, values, dropped, shown, isBeyond, DEPTH }
