// What documents 01 and 02 (W-202) and docs/DECISIONS.md say of a diff, in plain JavaScript: the update and the vector as update-model.cjs reads them, what is kept of
// it, and the bytes of that in either form. Made without our Rattle code and without Yjs.
'use strict'
const { readUpdate, readVector } = require('./update-model.cjs')
const { nowhere, writeDifferences } = require('./model.cjs')
const { dropped } = require('./any-model.cjs')
const spelling = require('./spelling.cjs')

const CONTENT = { deleted: 1, binary: 3, text: 4, format: 6, type: 7, any: 8 }
const KEYS = 256 // distinct keys that form 2 is written with
const some = x => x === null ? undefined : x
const pair = id => id === null ? undefined : [id.client, id.clock]
const inPair = (text, k) => text.charCodeAt(k) >= 0xdc00 && text.charCodeAt(k) <= 0xdfff

// A record without its first `cut` units or entries, as spelling.cjs writes it; null where that cuts in a pair.
const spelt = (update, b, cut) => {
  if (b.kind === 'skip') return { info: 10, length: b.length - cut }
  if (b.kind === 'gc') return { info: 0, length: b.length - cut }
  const bytesOf = part => update.slice(part.place, part.place + part.bytes)
  const textOf = part => part === null ? undefined : Buffer.from(bytesOf(part)).toString('utf8')
  const left = cut > 0n ? [b.client, b.clock + cut - 1n] : pair(b.left)
  const right = pair(b.right)
  const item = {
    info: CONTENT[b.kind] | (left && 128) | (right && 64) | (some(b.key) && 32),
    left,
    right,
    name: textOf(b.name),
    parent: pair(b.parent),
    key: textOf(b.key)
  }
  if (b.kind === 'deleted') return { ...item, length: b.length - cut }
  if (b.kind === 'binary') return { ...item, binary: bytesOf(b.part) }
  // Values are copied as they stand.
  if (b.kind === 'format') return { ...item, mark: textOf(b.mark), value: bytesOf(b.part) }
  if (b.kind === 'type') return { ...item, type: b.type, mark: textOf(b.mark) }
  if (b.kind === 'any') return { ...item, values: { count: b.length - cut, bytes: dropped(bytesOf(b.part), cut) } }
  const text = textOf(b.part)
  return inPair(text, Number(cut)) ? null : { ...item, text: text.slice(Number(cut)) }
}

// The sections that are left, highest client first; null in place of a block that would be cut in a pair.
const kept = (update, blocks, entries) => {
  const falling = (a, b) => a > b ? -1 : 1
  const clients = [...new Set(blocks.map(b => b.client))].sort(falling)
  return clients.flatMap(client => {
    const remote = entries.find(e => e.client === client)?.clock ?? 0n
    const all = blocks.filter(b => b.client === client)
    const from = all.findIndex(b => b.kind !== 'skip' && b.clock + b.length > remote)
    if (from < 0) return []
    const [first, ...others] = all.slice(from)
    const cut = remote > first.clock ? remote - first.clock : 0n
    return [{ client, clock: first.clock + cut, blocks: [spelt(update, first, cut), ...others.map(b => spelt(update, b, 0n))] }]
  })
}

// The delete set as it comes out of reading: a client's ranges stand together.
const grouped = ranges => [...new Set(ranges.map(d => d.client))].map(client =>
  [client, ranges.filter(d => d.client === client).map(d => [d.clock, d.length])])

// Whether the clocks of left and parent ids, or those of right ids, take a step that a difference column cannot.
const far = blocks => {
  const lefts = blocks.flatMap(b => b.info & 128 ? [b.left[1]] : b.info & 64 || b.parent === undefined ? [] : [b.parent[1]])
  const rights = blocks.flatMap(b => b.info & 64 ? [b.right[1]] : [])
  return [lefts, rights].some(clocks => writeDifferences(clocks, Infinity).number === 13)
}

const diff = (form, written, update, vector, { blockRows, rangeRows, room = Infinity } = {}) => {
  if (written !== 1 && written !== 2) return nowhere(12)
  const read = readUpdate(form, update, blockRows, rangeRows)
  if (read.number !== 0) return read
  const remote = readVector(vector)
  if (remote.number !== 0) return remote
  const sections = kept(update, read.blocks, remote.entries)
  const blocks = sections.flatMap(s => s.blocks)
  const marks = new Set(blocks.flatMap(b => b === null || b.mark === undefined ? [] : [b.mark]))
  if (written === 2 && marks.size > KEYS) return { ...nowhere(3), what: 'keys written' }
  if (blocks.includes(null)) return nowhere(9)
  if (written !== form && blocks.some(b => b.value !== undefined)) return nowhere(19)
  if (written === 2 && far(blocks)) return nowhere(13)
  const bytes = spelling.update(written, { sections, deletes: grouped(read.ranges) })
  return bytes.length > room ? nowhere(10) : { number: 0, bytes, read, sections }
}

module.exports = { diff }
