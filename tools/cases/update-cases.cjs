// A case of the update stream for operations 13, 14, 15, 18 and 21, with the line that is expected: from the model, and compared with Yjs.
'use strict'
const model = require('./update-model.cjs')
const yjs = require('./yjs.cjs')
const { held } = require('./held.cjs')
const { number, limited, sized, LONG, SHORT, hex, first, begin } = require('./stream.cjs')

const { add, stream, output, counts, refused, placed, told } = begin()

const id = x => x === null ? '-' : `${x.client}:${x.clock}`
const part = x => x === null ? '-' : `${x.place}+${x.bytes}`
const row = b => [b.client, b.clock, b.length, b.kind, id(b.left), id(b.right), part(b.name), id(b.parent), part(b.key), part(b.part), part(b.mark),
  b.type ?? '-'].join('.')
const range = d => [d.client, d.clock, d.length].join('.')
const tables = r => ['blocks', r.blocks.length, ...r.blocks.map(row), 'ranges', r.ranges.length, ...r.ranges.map(range)]

// What holds of every refusal is looked at, and that 5 lies at an info byte: with such a content number, or with one whose content it is inside of.
const reading = (form, update, ...rows) => {
  const r = model.readUpdate(form, update, ...rows)
  if (form === 1 || form === 2) held(update, r, other => model.readUpdate(form, other, ...rows))
  const info = update[r.place]
  const inside = { tag: form === 2 ? [6, 8] : [8], 'type number': [7] }[r.what]
  const fits = inside === undefined ? info !== 0 && info !== 10 && ![1, 3, 4, 6, 7, 8].includes(info & 31) : inside.includes(info & 31)
  if (r.number === 5 && !fits) throw new Error(`no info byte at ${r.place} of ${hex(update)}`)
  return r
}

// The model's answer with rows without end, compared with Yjs, once for each update.
const answers = new Map()
const whole = (form, update) => {
  const key = form + hex(update)
  if (!answers.has(key)) {
    const r = reading(form, update)
    yjs.compare(form, update, r)
    answers.set(key, r)
  }
  return answers.get(key)
}

const readVector = vector => {
  const r = model.readVector(vector)
  yjs.compareVector(vector, r)
  return add(13, [sized(vector, SHORT)], [first(r), ...(r.number === 0 ? r.entries.map(id) : []), 'zero'])
}

const read = (form, update, blockRows = 512, rangeRows = 1024) => {
  if (form === 1 || form === 2) whole(form, update)
  const r = reading(form, update, blockRows, rangeRows)
  return add(14, [limited('form', form, 255), limited('block rows', blockRows, 512), limited('range rows', rangeRows, 1024), sized(update, LONG)],
    [first(r), ...(r.number === 0 ? tables(r) : []), 'zero'])
}

// Strictly: as it is otherwise, or 14, or 15 once all was read.
const strict = (form, update, blockRows = 512, rangeRows = 1024) => {
  const r = model.readUpdate(form, update, blockRows, rangeRows, true)
  const otherwise = model.readUpdate(form, update, blockRows, rangeRows)
  if (r.number === 15 ? otherwise.number !== 0 : r.number !== 14 && r.number !== otherwise.number) throw new Error(`strictly ${r.number} of ${hex(update)}`)
  // what stands before bytes that are left may be all of an update
  if (form === 1 || form === 2) held(update, r, other => model.readUpdate(form, other, blockRows, rangeRows, true), { bare: r.number === 15 })
  return add(21, [limited('form', form, 255), limited('block rows', blockRows, 512), limited('range rows', rangeRows, 1024), sized(update, LONG)],
    [first(r), ...(r.number === 0 ? tables(r) : []), 'zero'])
}

const content = (form, n, update) => {
  if (form === 1 || form === 2) whole(form, update)
  const r = model.content(form, BigInt(n), update)
  return add(15, [limited('form', form, 255), number(n), sized(update, LONG)], [first(r), ...(r.number === 0 ? [hex(r.part)] : [])])
}

const list = input => add(18, [sized(input, LONG)], ['0', hex(Buffer.from(model.listing(input), 'ascii')), 'zero'])

module.exports = {
  readVector, read, strict, content, list, whole, range, tables, stream, output, refused,
  told: () => [
    `cases of an operation: ${told(counts)}`,
    `the number of a line: ${told(refused)}; at another place than 0: ${told(placed)}`,
    `${answers.size} updates, with Yjs ${yjs.version}: ${yjs.told()}`
  ].join('\n')
}
