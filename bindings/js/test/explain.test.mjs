// Explanations: worked ones; over the case stream the values of lines are the fields of the block's row, and a value that is a difference is its base and that
// difference. tests/explain holds each line to a second reader.
import assert from 'node:assert/strict'
import { test } from 'node:test'
import { FIELDS, load, Refused } from '../index.js'
import { BOLD2, bytes, C, D, MARCH1, MARCH2 } from './cases.mjs'
import { cases } from './stream.mjs'

const w = await load()
const short = l => [l.field, l.value, l.place, l.bytes, l.nth, l.of, l.base, l.difference]

test("the example of March: z's left clock is the third of the run at byte 7, 2 + 1", () => {
  assert.deepEqual(w.explain(2, MARCH2, 2).map(short), [
    ['block count', 3, 27, 1, null, null, null, null],
    ['client', 5, 3, 1, 0, 1, null, null],
    ['first clock', 0, 28, 1, null, null, null, null],
    ['clock', 2, null, 0, null, null, 0, 2],
    ['info', 132, 15, 1, null, null, null, null],
    ['left client', 9, 4, 2, 4, 5, null, null],
    ['left clock', 3, 7, 2, 2, 3, 2, 1],
    ['text', 1, 21, 2, 2, 3, null, null]
  ])
  assert.deepEqual(w.explain(2, MARCH2, 2).map(l => [l.endless, l.part]).slice(4), [[true, null], [false, null], [false, null], [false, { place: 20, bytes: 1 }]])
  assert.deepEqual(w.explain(1, MARCH1, 2).map(short), [
    ['block count', 3, 1, 1, null, null, null, null],
    ['client', 5, 2, 1, null, null, null, null],
    ['first clock', 0, 3, 1, null, null, null, null],
    ['clock', 2, null, 0, null, null, 0, 2],
    ['info', 132, 18, 1, null, null, null, null],
    ['left client', 9, 19, 1, null, null, null, null],
    ['left clock', 3, 20, 1, null, null, null, null],
    ['text', 1, 21, 1, null, null, null, null]
  ])
})

test('a key of form 2 has two lines where it is new, one where it was read before', () => {
  const keys = n => w.explain(2, bytes('00 02 0a 4a 02 45 00 01 00 00 03 06 00 86 05 02 74 62 41 00 01 01 00 00 01 02 00 78 78 00'), n).filter(l => l.number > 20).map(l => [...short(l), l.part])
  assert.deepEqual(keys(0), [
    ['mark key', 5, 2, 1, 0, 1, 0, 5, { place: 17, bytes: 1 }],
    ['key text', 1, 18, 2, 1, 2, null, null, { place: 17, bytes: 1 }],
    ['mark value', 1, 27, 0, null, null, null, null, { place: 27, bytes: 1 }]
  ])
  assert.deepEqual(keys(1), [
    ['mark key', 0, 3, 1, 0, 1, 5, -5, { place: 17, bytes: 1 }],
    ['mark value', 1, 28, 0, null, null, null, null, { place: 28, bytes: 1 }]
  ])
  assert.equal(w.explain(2, BOLD2, 0).length, 10)
})

test('refused', () => {
  const refused = (call, number, at) => assert.throws(call, e => e instanceof Refused && e.number === number && e.at === at)
  refused(() => w.explain(3, C, 0), 12, null)
  refused(() => w.explain(1, new Uint8Array(16777216), 0), 3, null)
  refused(() => w.explain(1, C.subarray(0, 11), 7), 1, 11)
  refused(() => w.explain(1, C, 1), 11, null)
  refused(() => w.explain(2, D, Number.MAX_SAFE_INTEGER), 11, null)
  assert.throws(() => w.explain(1, C, -1), TypeError)
})

/** What each field says of a block's row. */
const SAYS = {
  client: b => b.client,
  clock: b => b.clock,
  'skip length': b => b.length,
  'gc length': b => b.length,
  'left client': b => b.left.client,
  'left clock': b => b.left.clock,
  'right client': b => b.right.client,
  'right clock': b => b.right.clock,
  'parent client': b => b.parent.client,
  'parent clock': b => b.parent.clock,
  'deleted length': b => b.length,
  text: b => b.length,
  type: b => b.type,
  'list length': b => b.length
}
const LEADS = { 'parent name': 'name', key: 'key', binary: 'part', text: 'part', 'mark key': 'mark', 'mark value': 'part', 'node name': 'mark', 'list values': 'part', 'key text': 'mark' }

test('values are those of the row, and a difference comes to its value', t => {
  const seen = new Set()
  const counts = { updates: 0, lines: 0, differences: 0 }
  for (const [operation, given] of cases()) {
    const [form, , , update] = given
    if (operation !== 14 || (form !== 1 && form !== 2) || seen.has(form + update.toString('latin1'))) continue
    seen.add(form + update.toString('latin1'))
    let blocks
    try {
      ({ blocks } = w.read(form, update))
    } catch (e) {
      if (!(e instanceof Refused)) throw e
      continue
    }
    counts.updates++
    blocks.slice(0, 20).forEach((block, n) => {
      const lines = w.explain(form, update, n)
      const told = new Set(lines.map(l => l.field))
      assert.deepEqual([told.has('left clock'), told.has('right clock'), told.has('parent clock'), told.has('parent name'), told.has('key')],
        [block.left, block.right, block.parent, block.name, block.key].map(x => x !== null))
      for (const { field, number, value, nth, of, base, difference, part } of lines) {
        assert.equal(FIELDS[number], field)
        if (field in SAYS) assert.equal(value, SAYS[field](block))
        if (field in LEADS) assert.deepEqual(part, block[LEADS[field]])
        if (base !== null) assert.equal(value, base + difference)
        assert.ok(nth === null || nth < of)
        counts.lines++
        counts.differences += base === null || field === 'clock' ? 0 : 1
      }
    })
  }
  assert.ok(counts.updates > 5000 && counts.differences > 5000)
  t.diagnostic(`${counts.lines} lines of ${counts.updates} updates, ${counts.differences} of them differences`)
})
