// Yjs's own diffs, held against the model's: of the update put into document 01's order, and of the update as it is.
'use strict'
const decoding = require('/usr/share/nodejs/lib0/dist/decoding.cjs')
const encoding = require('/usr/share/nodejs/lib0/dist/encoding.cjs')
const { Y, own, attempt, read, kept, ourRecord, meant, theirRecord, theirIds } = require('./yjs.cjs')
const { readUpdate } = require('./update-model.cjs')
const { hex } = require('./stream.cjs')

const KEYS = 256
// Yjs does not name its encoder of form 2, but hands it to what it writes.
const UpdateEncoderV2 = (() => {
  const doc = new Y.Doc()
  doc.getText('t').insert(0, 'a')
  const { write } = Y.Item.prototype
  let found = null
  Y.Item.prototype.write = function (encoder, offset) {
    found = encoder.constructor
    write.call(this, encoder, offset)
  }
  Y.encodeStateAsUpdateV2(doc)
  Y.Item.prototype.write = write
  return found
})()

const converted = (from, to, update) => from === to ? update : from === 1 ? Y.convertUpdateFormatV1ToV2(update) : Y.convertUpdateFormatV2ToV1(update)
const diff = (form, update, vector) => form === 1 ? Y.diffUpdate(update, vector) : Y.diffUpdateV2(update, vector)
// What Yjs does with an update in one form to have its diff in the other: the bytes, or null where it throws. A format whose value JSON does not have can fall
// away before it would be converted.
const theirs = (form, written, update, vector) => attempt(() => diff(written, converted(form, written, own(update)), own(vector))) ??
  attempt(() => converted(form, written, diff(form, own(update), own(vector))))

const highestFirst = structs => [...structs].sort((a, b) => b.id.client - a.id.client) // a client's own stay in order

// An update of that form by Yjs's own encoder: the highest client first, no item of length 0, the delete set in its normal form.
const ordered = (form, { structs, ds }) => {
  const e = form === 1 ? new Y.UpdateEncoderV1() : new UpdateEncoderV2()
  const number = n => encoding.writeVarUint(e.restEncoder, n)
  const groups = (all, of) => [...new Set(all.map(of))].map(client => [client, all.filter(x => of(x) === client)])
  const sections = groups(highestFirst(structs.filter(kept)), s => s.id.client)
  number(sections.length)
  for (const [client, blocks] of sections) {
    number(blocks.length)
    e.writeClient(client)
    number(blocks[0].id.clock)
    for (const s of blocks) s.write(e, 0)
  }
  const deletes = groups(theirIds(ds).map(line => line.split(' ').map(Number)), ([client]) => client)
  number(deletes.length)
  for (const [client, ranges] of deletes) {
    e.resetDsCurVal()
    number(client)
    number(ranges.length)
    for (const [, clock, length] of ranges) {
      e.writeDsClock(clock)
      e.writeDsLen(length)
    }
  }
  return e.toUint8Array()
}

// Yjs has a map of the keys in form 2 by their numbers, but never puts one in, so that it writes each anew. Here it puts them in, as document 02 numbers them,
// and bytes can be held against each other.
const numbered = run => {
  const { writeKey } = UpdateEncoderV2.prototype
  UpdateEncoderV2.prototype.writeKey = function (key) {
    const number = this.keyClock
    writeKey.call(this, key)
    if (!this.keyMap.has(key)) this.keyMap.set(key, number)
  }
  try {
    return run()
  } finally {
    UpdateEncoderV2.prototype.writeKey = writeKey
  }
}
const marks = structs => structs.flatMap(s => s.content instanceof Y.ContentFormat ? [s.content.key] : [s.content?.type?.hookName ?? s.content?.type?.nodeName])
  .filter(key => key !== undefined)

// Whether Yjs spells all values as they stand: it reads and writes them, where a diff of ours copies.
const spellsSo = form => record => {
  const [, , length, kind, , , , , , part] = record.split(' ')
  if (kind !== 'any' && kind !== 'format') return true
  const bytes = Uint8Array.from(Buffer.from(part.slice(1, -1), 'hex'))
  if (kind === 'format' && form === 1) return JSON.stringify(JSON.parse(Buffer.from(bytes).toString('utf8'))) === Buffer.from(bytes).toString('utf8')
  const [from, to] = [decoding.createDecoder(bytes), encoding.createEncoder()]
  for (let n = kind === 'any' ? Number(length) : 1; n > 0; n--) encoding.writeAny(to, decoding.readAny(from))
  return hex(encoding.toUint8Array(to)) === hex(bytes)
}

// A text whose end, as Yjs's diff has it, is not the end of the update's own: half a pair cannot be written.
const cutsPair = (before, after) => after.structs.some(s => s.content instanceof Y.ContentString && !before.structs.some(t =>
  t.id.client === s.id.client && t.id.clock <= s.id.clock && t.content instanceof Y.ContentString && t.content.str.slice(s.id.clock - t.id.clock) === s.content.str))

const ranges = ds => [...ds.clients].flatMap(([client, all]) => all.map(d => `${client} ${d.clock} ${d.len}`))
const inOrder = r => [...r.structs.map(theirRecord), ...ranges(r.ds)].join('\n')
const inAnyOrder = r => [...highestFirst(r.structs).map(theirRecord), ...theirIds(r.ds)].join('\n')
// In form 2 a range that starts before the end of the one before it, or is empty, cannot be written.
const falls = ds => [...ds.clients.values()].some(all => all.some((d, k) => d.len === 0 || (k > 0 && d.clock < all[k - 1].clock + all[k - 1].len)))

// How many diffs: of an update in order, the same bytes, or the same records where Yjs spells a value in another way; of one as it is, the same bytes, or the
// same records and deleted ids in another order; in form 2 with keys that Yjs numbers anew, which both read to the same records; refused 9, 13, 19 and 3.
// Not held against each other: an update with a flag over 127, or with a value that JavaScript does not have; as it is, one with an item of length 0, and
// ranges that form 2 cannot have.
const counts = { ordered: 0, respelt: 0, bytes: 0, records: 0, anew: 0, pair: 0, far: 0, format: 0, keys: 0, flag: 0, beyond: 0, empty: 0, falling: 0 }

// `r` is the model's answer, rows and room without end.
const compare = (form, written, update, vector, r) => {
  const tooMany = r.number === 3 && r.what === 'keys written'
  if (![0, 9, 13, 19].includes(r.number) && !tooMany) return
  if (form === 2 && update[0] > 127) return counts.flag++
  const check = (what, holds) => {
    if (!holds) throw new Error(`the model and Yjs part at ${what}: form ${form} to ${written}, ${hex(update)} against ${hex(vector)}`)
  }
  const records = readUpdate(form, update).blocks.map(ourRecord(update))
  if (records.map(meant(form)).includes(null)) return counts.beyond++
  const before = read(form, update)
  const best = ordered(form, before)
  // What is left of it, in its own form: whether that can be written in the other one.
  const left = read(form, diff(form, best, own(vector)))
  check('keys', (written === 2 && new Set(marks(left.structs)).size > KEYS) === tooMany)
  if (tooMany) return counts.keys++
  check('a cut in a pair', cutsPair(before, left) === (r.number === 9))
  if (r.number === 9) return counts.pair++
  check('a format in the other form', (form !== written && left.structs.some(s => s.content instanceof Y.ContentFormat)) === (r.number === 19))
  if (r.number === 19) return counts.format++
  const out = numbered(() => theirs(form, written, best, vector))
  check('an error', out !== null)
  const after = read(written, out)
  const again = readUpdate(written, out).number
  check('a difference', again === (r.number === 13 ? 3 : 0))
  if (r.number === 13) return counts.far++
  const respelt = !records.every(spellsSo(form))
  if (respelt) check('the records of a diff', inOrder(read(written, r.bytes)) === inOrder(after))
  else check('the bytes of a diff', hex(out) === hex(r.bytes))
  counts[respelt ? 'respelt' : 'ordered']++
  if (!before.structs.every(kept)) return counts.empty++
  const inForm2 = written === 2 || attempt(() => converted(form, written, own(update))) === null
  if (inForm2 && falls(before.ds)) return counts.falling++
  const asItIs = theirs(form, written, update, vector)
  check('records and deleted ids', inAnyOrder(read(written, asItIs)) === inAnyOrder(after))
  if (written === 2 && marks(after.structs).length > 0) {
    const r2 = readUpdate(2, asItIs)
    check('keys as Yjs numbers them', marks(after.structs).length > KEYS ? r2.number === 3 : r2.blocks.map(ourRecord(asItIs)).map(meant(2)).join() === read(2, asItIs).structs.map(theirRecord).join())
    counts.anew++
  }
  if (inOrder(before) !== inOrder(read(form, best))) return counts.records++
  if (!respelt) check('the bytes of a diff as it is', hex(numbered(() => theirs(form, written, update, vector))) === hex(r.bytes))
  counts.bytes++
}

module.exports = { compare, theirs, ordered, numbered, told: () => Object.entries(counts).map(([what, n]) => `${what} ${n}`).join('  ') }
