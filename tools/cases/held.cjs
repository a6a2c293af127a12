// What holds of every refusal of reading and its place, whatever was read: the model is held to it on each case.
'use strict'
const { begin, many } = require('./random.cjs')
const { hex } = require('./stream.cjs')

const { random } = begin(0x5bd1e995)

// `r` is the refusal of these bytes, `again` reads others in the same way. A refusal lies inside the bytes; for 1, unless a column of an update ended, at
// their end. Bytes behind them change nothing of a refusal other than that. The bytes before its place are all read, so that they alone end there; not
// those of a `bare` byte column, whose last value stands without end where no count is left.
const held = (bytes, r, again, { bare = false } = {}) => {
  if (r.number === 0) return
  const check = (what, holds) => {
    if (!holds) throw new Error(`${what}: refused ${r.number} at ${r.place} of ${hex(bytes)}`)
  }
  const same = (other, number, place) => other.number === number && other.place === place
  const atEnd = r.number === 1 && !r.column
  check('a place outside', r.place >= 0 && (r.number === 1 ? r.place <= bytes.length : r.place < bytes.length))
  if (atEnd) check('an end that is none', r.place === bytes.length)
  else check('bytes behind', same(again([...bytes, ...many(1 + random(4), () => random(256))]), r.number, r.place))
  if (!bare) check('bytes before', same(again(bytes.slice(0, r.place)), 1, r.place))
}

module.exports = { held }
