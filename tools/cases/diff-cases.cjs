// A case of operation 16 with the line that is expected: from the model, and compared with Yjs's own diffs.
'use strict'
const model = require('./diff-model.cjs')
const { readVector } = require('./update-model.cjs')
const { whole, tables } = require('./update-cases.cjs')
const yjs = require('./yjs.cjs')
const yjsDiffs = require('./yjs-diffs.cjs')
const { limited, sized, roomOf, LONG, SHORT, hex, first, begin } = require('./stream.cjs')

const { add, stream, output, counts, refused, placed, told } = begin()
const known = form => form === 1 || form === 2

// The model's answer with rows and room without end, compared with Yjs, once for each diff.
const answers = new Map()
const answer = (form, written, update, vector) => {
  const key = [form, written, hex(update), hex(vector)].join()
  if (!answers.has(key)) {
    if (known(form)) whole(form, update)
    yjs.compareVector(vector, readVector(vector))
    const r = model.diff(form, written, update, vector)
    yjsDiffs.compare(form, written, update, vector, r)
    answers.set(key, r)
  }
  return answers.get(key)
}

const diff = (form, written, update, vector, { blockRows = 512, rangeRows = 1024, room = 65536 } = {}) => {
  answer(form, written, update, vector)
  const r = model.diff(form, written, update, vector, { blockRows, rangeRows, room })
  const parts = [limited('form', form, 255), limited('form written', written, 255), limited('block rows', blockRows, 512), limited('range rows', rangeRows, 1024),
    roomOf(room), sized(update, LONG), sized(vector, SHORT)]
  return add(16, parts, [first(r), ...(r.number === 0 ? [hex(r.bytes), ';', ...tables(r.read)] : []), 'zero'])
}

// Rows and room just enough, or plenty; now and then one too few of one of them.
const fitted = (random, form, written, update, vector, k) => {
  const r = answer(form, written, update, vector)
  if (r.number !== 0) return diff(form, written, update, vector, k % 2 === 0 ? {} : { blockRows: whole(form, update).blocks?.length, room: random(60) })
  const lent = { blockRows: r.read.blocks.length, rangeRows: r.read.rangesRead, room: r.bytes.length }
  diff(form, written, update, vector, k % 3 === 0 ? {} : lent)
  if (k % 6 === 0) diff(form, written, update, vector, { ...lent, room: lent.room - 1 })
  if (k % 16 === 1 && lent.blockRows > 0) diff(form, written, update, vector, { ...lent, blockRows: lent.blockRows - 1 })
  if (k % 16 === 3 && lent.rangeRows > 0) diff(form, written, update, vector, { ...lent, rangeRows: lent.rangeRows - 1 })
}

module.exports = {
  diff, fitted, answer, stream, output, counts, refused,
  told: () => [
    `cases of an operation: ${told(counts)}`,
    `the number of a line: ${told(refused)}; at another place than 0: ${told(placed)}`,
    `${answers.size} diffs, with Yjs ${yjs.version}: ${yjsDiffs.told()}`
  ].join('\n')
}
