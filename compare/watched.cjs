// Yjs and lib0 reading, watched: what Yjs reads from an update, whether one of its columns was read past its end, and stopped where it would go on without end.
'use strict'
const decoding = require('/usr/share/nodejs/lib0/dist/decoding.cjs')
const { Y, own } = require('../tools/cases/yjs.cjs')

const MOST = 200000 // draws from columns, and infos: ours has 65,535 blocks at most
const plain = { ...decoding }
let draws = 0
let past = false // a column read past its end
let textPast = false // the text, longer than its column
class Stopped extends Error {}
const drawn = () => {
  if (++draws > MOST) throw new Stopped()
}

// Yjs looks these up at each use, so that it makes and calls ours.
const watched = Column => class extends Column {
  read () {
    drawn()
    const value = super.read()
    if (this.pos > this.arr.length) past = true
    return value
  }
}
decoding.UintOptRleDecoder = watched(plain.UintOptRleDecoder)
decoding.IntDiffOptRleDecoder = watched(plain.IntDiffOptRleDecoder)
decoding.RleDecoder = watched(plain.RleDecoder)
decoding.StringDecoder = class extends plain.StringDecoder {
  constructor (column) {
    super(column)
    if (this.decoder.pos > column.length) textPast = true
  }

  read () {
    drawn()
    const value = super.read()
    if (this.decoder.pos > this.decoder.arr.length) past = true
    return value
  }
}
decoding.readUint8 = decoder => {
  drawn()
  return plain.readUint8(decoder)
}

// { structs, ds } or null, with what was seen.
const read = (form, update) => {
  draws = 0
  past = textPast = false
  let [got, stopped] = [null, false]
  try {
    got = form === 1 ? Y.decodeUpdate(own(update)) : Y.decodeUpdateV2(own(update))
  } catch (e) {
    stopped = e instanceof Stopped
  }
  const seen = { got, stopped, past, textPast }
  draws = -Infinity // what else Yjs does is not counted
  return seen
}

// Up to so many values of a column, as lib0 has them, and what it ends with: more, or an error.
const column = (kind, bytes, most) => {
  const values = []
  try {
    const column = kind === 0 ? new plain.UintOptRleDecoder(own(bytes)) : kind === 1 ? new plain.IntDiffOptRleDecoder(own(bytes))
      : kind === 2 ? new plain.RleDecoder(own(bytes), plain.readUint8) : new plain.StringDecoder(own(bytes))
    while (values.length < most) values.push(column.read())
    return { values, end: 'more' }
  } catch (e) {
    return { values, end: 'error' }
  }
}

module.exports = { read, column }
