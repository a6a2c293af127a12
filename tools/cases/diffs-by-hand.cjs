// Diffs worked by hand, by document 01 and the readings of it in docs/DECISIONS.md: what is kept, its bytes in both forms, the order of refusals, and
// where Yjs's own diff is another.
'use strict'
const c = require('./diff-cases.cjs')
const yjs = require('./yjs-diffs.cjs')
const { bytes, hex, worked: w } = require('./stream.cjs')
const { many } = require('./random.cjs')

const diff = (form, written, update, vector, lent) => c.diff(form, written, bytes(update), bytes(vector), lent)
const forms = [1, 2]
// Done: the bytes in each form, the same tables. `two` is left out where only form 1 is worked.
const gives = (form, update, vector, tables, one, two) => [one, two].forEach((out, k) => {
  if (out === undefined) return
  const size = bytes(out).length
  const line = `0 ${hex(bytes(out))} ; ${tables} zero`
  w(diff(form, k + 1, update, vector), line)
  w(diff(form, k + 1, update, vector, { room: size }), line)
  w(diff(form, k + 1, update, vector, { room: size - 1 }), '10@0 zero')
})
// `why` is the number and the place.
const refused = (why, form, written, update, vector, lent) => w(diff(form, written, update, vector, lent), `${why} zero`)

const A = '00 00'
const B = '00 00 00 00 00 00 01 00 00 00 00 00 00'
const C = '01 01 05 00 04 01 01 74 02 68 69 00'
const D = '00 00 01 05 00 00 01 04 06 03 74 68 69 01 02 01 01 00 00 01 01 00 00'
const [tableC, tableD] = ['blocks 1 5.0.2.text.-.-.7+1.-.-.9+2.-.- ranges 0', 'blocks 1 5.0.2.text.-.-.10+1.-.-.11+2.-.- ranges 0']

const kept = () => {
  // Nothing is nothing, whatever the vector. Bytes behind an update and a flag are not written again.
  for (const vector of ['00', '01 05 00', '02 05 01 09 ff ff ff ff 07', '00 ff']) {
    gives(1, A, vector, 'blocks 0 ranges 0', A, B)
    gives(2, B, vector, 'blocks 0 ranges 0', A, B)
  }
  gives(1, A + 'ff', '00', 'blocks 0 ranges 0', A, B)
  gives(2, '07' + B.slice(2) + '01', '00', 'blocks 0 ranges 0', A, B)
  w(diff(1, 1, A, '00', { blockRows: 0, rangeRows: 0, room: 2 }), '0 0000 ; blocks 0 ranges 0 zero')
  // E: the left id is (5, 0). In form 2 the clients are 5 twice, the left clock 0, and there is no parent and no length.
  const E = ['01 01 05 01 84 05 00 01 69 00', '00 00 02 45 00 01 00 00 01 84 03 01 69 01 00 00 00 01 01 01 00']
  for (const [form, update, table] of [[1, C, tableC], [2, D, tableD]]) {
    gives(form, update, '00', table, C, D)
    gives(form, update, '01 05 00', table, C, D)
    gives(form, update, '01 05 01', table, ...E)
    gives(form, update, '01 05 02', table, A, B)
    gives(form, update, '01 05 ff ff ff ff 07', table, A, B)
    // Clients without a section, before and behind; a clock in nine bytes; bytes left over.
    gives(form, update, '01 09 01', table, C, D)
    gives(form, update, '03 09 07 05 01 ff ff ff ff ff ff ff 0f 00', table, ...E)
    gives(form, update, '01 05 81 80 80 80 80 80 80 80 00 ff ff', table, ...E)
    w(diff(form, 1, update, '01 05 01', { blockRows: 1, rangeRows: 0, room: 10 }), `0 ${hex(bytes(E[0]))} ; ${table} zero`)
  }
  // A first clock in nine bytes is written in one.
  gives(1, '01 01 05 80 80 80 80 80 80 80 80 00 04 01 01 74 02 68 69 00', '00', 'blocks 1 5.0.2.text.-.-.15+1.-.-.17+2.-.- ranges 0', C, D)
  // Characters of one, two and one units: cut before, behind and after the pair. In it: 9.
  const wide = '01 01 05 00 84 09 00 07 c3 a9 f0 9f 98 80 78 00'
  const wideTable = 'blocks 1 5.0.4.text.9:0.-.-.-.-.8+7.-.- ranges 0'
  gives(1, wide, '01 05 01', wideTable, '01 01 05 01 84 05 00 05 f0 9f 98 80 78 00')
  for (const written of forms) refused('9@0', 1, written, wide, '01 05 02')
  gives(1, wide, '01 05 03', wideTable, '01 01 05 03 84 05 02 01 78 00')
  gives(1, wide, '01 05 04', wideTable, A, B)
  // GC and deleted shorten. Form 2: no left id for the GC, its length in the length column.
  gives(1, '01 01 05 00 00 05 00', '01 05 03', 'blocks 1 5.0.5.gc.-.-.-.-.-.-.-.- ranges 0', '01 01 05 03 00 02 00',
    '00 00 01 05 00 00 01 00 01 00 00 00 01 02 01 01 03 00')
  gives(1, '01 01 05 00 01 01 01 74 05 00', '01 05 03', 'blocks 1 5.0.5.deleted.-.-.7+1.-.-.-.-.- ranges 0', '01 01 05 03 81 05 02 02 00',
    '00 00 02 45 00 01 04 00 01 81 01 00 00 00 01 02 01 01 03 00')
  // Only the first kept block is cut: "hi", then "yo".
  gives(1, '01 02 05 00 84 09 00 02 68 69 84 05 01 02 79 6f 00', '01 05 01', 'blocks 2 5.0.2.text.9:0.-.-.-.-.8+2.-.- 5.2.2.text.5:1.-.-.-.-.14+2.-.- ranges 0',
    '01 02 05 01 84 05 00 01 69 84 05 01 02 79 6f 00')
  // GC of length 0 at 3: it ends above 2 and is first; it ends at 3 and falls away.
  const empty = '01 02 05 03 00 00 84 05 02 01 62 00'
  const emptyTable = 'blocks 2 5.3.0.gc.-.-.-.-.-.-.-.- 5.3.1.text.5:2.-.-.-.-.10+1.-.- ranges 0'
  gives(1, empty, '01 05 02', emptyTable, empty)
  gives(1, empty, '01 05 03', emptyTable, '01 01 05 03 84 05 02 01 62 00')
  // Skip of 3, then "b" at 3: the Skip leads, whether the vector ends before, in or behind it.
  for (const vector of ['00', '01 05 02', '01 05 03']) {
    gives(1, '01 02 05 00 0a 03 84 05 02 01 62 00', vector, 'blocks 2 5.0.3.skip.-.-.-.-.-.-.-.- 5.3.1.text.5:2.-.-.-.-.10+1.-.- ranges 0', '01 01 05 03 84 05 02 01 62 00')
  }
  // GC, Skip, GC, Skip: behind a kept block a Skip stays, at the end too; when the second GC falls away, the last one leads.
  const skips = '01 04 05 00 00 01 0a 02 00 01 0a 04 00'
  const skipsTable = 'blocks 4 5.0.1.gc.-.-.-.-.-.-.-.- 5.1.2.skip.-.-.-.-.-.-.-.- 5.3.1.gc.-.-.-.-.-.-.-.- 5.4.4.skip.-.-.-.-.-.-.-.- ranges 0'
  gives(1, skips, '00', skipsTable, skips, '00 00 01 05 00 00 07 00 00 0a 00 00 00 0a 01 00 00 00 02 41 00 01 04 00 02 04 00')
  gives(1, skips, '01 05 01', skipsTable, '01 02 05 03 00 01 0a 04 00')
  gives(1, skips, '01 05 04', skipsTable, A, B)
  // Text "hi" in map "t" under "k": the cut one keeps bit 32 (a4) without a key. Read again it has none, so a diff of this diff has no bit 32.
  const keyed = '01 01 05 00 24 01 01 74 01 6b 02 68 69 00'
  const keyedTable = 'blocks 1 5.0.2.text.-.-.7+1.-.9+1.11+2.-.- ranges 0'
  gives(1, keyed, '00', keyedTable, keyed)
  gives(1, keyed, '01 05 01', keyedTable, '01 01 05 01 a4 05 00 01 69 00', '00 00 02 45 00 01 00 00 01 a4 03 01 69 01 00 00 00 01 01 01 00')
  gives(1, '01 01 05 01 a4 05 00 01 69 00', '00', 'blocks 1 5.1.1.text.5:0.-.-.-.-.8+1.-.- ranges 0', '01 01 05 01 84 05 00 01 69 00')
  gives(2, '00 00 02 45 00 01 00 00 01 a4 03 01 69 01 00 00 00 01 01 01 00', '00', 'blocks 1 5.1.1.text.5:0.-.-.-.-.12+1.-.- ranges 0', ...E)
  // An empty key is a key.
  gives(1, '01 01 05 00 21 01 01 74 00 02 00', '01 05 01', 'blocks 1 5.0.2.deleted.-.-.7+1.-.9+0.-.-.- ranges 0', '01 01 05 01 a1 05 00 01 00')
  // A right id stays with a cut; its bit 32 had no key. A left id is another one.
  gives(1, '01 01 05 00 64 09 03 02 68 69 00', '00', 'blocks 1 5.0.2.text.-.9:3.-.-.-.8+2.-.- ranges 0', '01 01 05 00 44 09 03 02 68 69 00')
  gives(1, '01 01 05 00 64 09 03 02 68 69 00', '01 05 01', 'blocks 1 5.0.2.text.-.9:3.-.-.-.8+2.-.- ranges 0', '01 01 05 01 c4 05 00 09 03 01 69 00')
  gives(1, '01 01 05 00 84 09 03 02 68 69 00', '01 05 01', 'blocks 1 5.0.2.text.9:3.-.-.-.-.8+2.-.- ranges 0', E[0], E[1])
  // Parent info 7 is an id, and is written 0. In form 2 its clock 4 is a left clock.
  gives(1, '01 01 05 00 01 07 09 04 02 00', '00', 'blocks 1 5.0.2.deleted.-.-.-.9:4.-.-.-.- ranges 0', '01 01 05 00 01 00 09 04 02 00',
    '00 00 02 05 09 01 08 00 01 01 01 00 01 00 00 01 02 01 01 00 00')
  // Highest client first; 7 has nothing left.
  gives(1, '03 01 05 00 00 01 01 07 00 00 02 01 09 00 00 03 00', '01 07 02', 'blocks 3 5.0.1.gc.-.-.-.-.-.-.-.- 7.0.2.gc.-.-.-.-.-.-.-.- 9.0.3.gc.-.-.-.-.-.-.-.- ranges 0',
    '02 01 09 00 00 03 01 05 00 00 01 00', '00 00 02 09 05 00 00 01 00 01 00 00 00 02 03 01 02 01 00 01 00 00')
  // 64 sections of a GC of 2, all known to clock 1, in rising order.
  const sixty = (order, blocks) => order.map(k => blocks(k.toString(16).padStart(2, '0'))).join('')
  const [rising, falling] = [many(64, k => k), many(64, k => 63 - k)]
  gives(1, '40' + sixty(rising, k => `01 ${k} 00 00 02`) + '00', '40' + sixty(rising, k => `${k} 01`),
    ['blocks 64', ...rising.map(k => `${k}.0.2.gc.-.-.-.-.-.-.-.-`), 'ranges 0'].join(' '), '40' + sixty(falling, k => `01 ${k} 01 00 01`) + '00')
  refused('3@0', 1, 1, '41' + sixty(rising, k => `01 ${k} 00 00 02`) + '01 40 00 00 02 00', '00')
  refused('3@0', 1, 1, C, '41' + sixty(rising, k => `${k} 01`) + '40 01')
  // The whole delete set, whatever the vector: 9's ranges before 5's. Form 2: 1 from 0, 2 - 1, 5 - 3, 1 - 1; 3 from 0, 1 - 1.
  for (const vector of ['00', '02 05 09 09 09']) {
    gives(1, '00 02 05 01 03 01 09 02 05 01 01 02', vector, 'blocks 0 ranges 3 9.1.2 9.5.1 5.3.1', '00 02 09 02 01 02 05 01 05 01 03 01',
      '00 00 00 00 00 00 01 00 00 00 00 00 02 09 02 01 01 02 00 05 01 03 00')
  }
}

const differences = () => {
  // Left clock 2^30 - 1 is e = 2^31 - 2. One more is 13 in form 2, as left, right and parent clock.
  gives(1, '01 01 05 00 81 09 ff ff ff ff 03 01 00', '00', 'blocks 1 5.0.1.deleted.9:1073741823.-.-.-.-.-.-.- ranges 0', '01 01 05 00 81 09 ff ff ff ff 03 01 00',
    '00 00 02 05 09 05 be ff ff ff 0f 00 01 81 01 00 00 00 01 01 01 01 00 00')
  for (const block of ['81 09 80 80 80 80 04 01', '41 09 80 80 80 80 04 01', '01 00 09 80 80 80 80 04 01']) {
    refused('13@0', 1, 2, `01 01 05 00 ${block} 00`, '00')
    w(diff(1, 1, `01 01 05 00 ${block} 00`, '00').split(' ;')[0], `0 ${hex(bytes(`01 01 05 00 ${block} 00`))}`)
  }
  // 2^30 - 1 twice, then -2^30; one less is 13.
  const steps = last => `01 03 05 00 81 09 ff ff ff ff 03 01 81 09 fe ff ff ff 07 01 81 09 ${last} ff ff ff 03 01 00`
  const table = 'blocks 3 5.0.1.deleted.9:1073741823.-.-.-.-.-.-.- 5.1.1.deleted.9:2147483646.-.-.-.-.-.-.- 5.2.1.deleted.9:1073741822.-.-.-.-.-.-.- ranges 0'
  gives(1, steps('fe'), '00', table, steps('fe'), '00 00 03 05 49 01 0b bf ff ff ff 0f 00 c0 80 80 80 10 00 01 81 01 00 00 00 02 41 01 01 03 00 00')
  refused('13@0', 1, 2, steps('fd'), '00')
  // Just ids that are written count: the first block falls away, or is cut and has left id (5, 0).
  gives(1, '01 02 05 00 81 09 80 80 80 80 04 01 81 09 00 01 00', '01 05 01', 'blocks 2 5.0.1.deleted.9:1073741824.-.-.-.-.-.-.- 5.1.1.deleted.9:0.-.-.-.-.-.-.- ranges 0',
    '01 01 05 01 81 09 00 01 00', '00 00 02 05 09 01 00 00 01 81 01 00 00 00 01 01 01 01 01 00')
  gives(1, '01 01 05 00 81 09 80 80 80 80 04 02 00', '01 05 01', 'blocks 1 5.0.2.deleted.9:1073741824.-.-.-.-.-.-.- ranges 0',
    '01 01 05 01 81 05 00 01 00', '00 00 02 45 00 01 00 00 01 81 01 00 00 00 01 01 01 01 01 00')
  // Form 2 reads 2^30 - 1 and 2^31 - 2 by two steps. Without the first block, or with the second one's client first, it is one.
  const two = '00 00 03 05 49 00 06 bf ff ff ff 0f 00 00 01 81 01 00 00 00 02 41 00 01 02 00 00'
  const twoTable = 'blocks 2 5.0.1.deleted.9:1073741823.-.-.-.-.-.-.- 5.1.1.deleted.9:2147483646.-.-.-.-.-.-.- ranges 0'
  gives(2, two, '00', twoTable, '01 02 05 00 81 09 ff ff ff ff 03 01 81 09 fe ff ff ff 07 01 00', two)
  refused('13@0', 2, 2, two, '01 05 01')
  gives(2, two, '01 05 01', twoTable, '01 01 05 01 81 09 fe ff ff ff 07 01 00')
  refused('13@0', 2, 2, '00 00 04 05 07 09 07 06 bf ff ff ff 0f 00 00 01 81 01 00 00 00 02 41 00 02 01 00 01 00 00', '00')
}

const order = () => {
  // An unknown form, either one, comes first: no byte is there, rows and room are none, the vector is bad.
  for (const [form, written] of [[0, 1], [3, 2], [255, 1], [1, 0], [2, 3], [1, 255], [4, 4]]) {
    refused('12@0', form, written, '', '', { blockRows: 0, rangeRows: 0, room: 0 })
    refused('12@0', form, written, C, '00')
  }
  // The update comes before the vector, its rows too; then the vector.
  const bad = [['1', ''], ['1', '01 05'], ['2', '80 80 80 80 80 80 80 80 80'], ['3', '41'], ['3', '01 05 80 80 80 80 08'], ['4', '02 05 01 05']]
  const pairs = '01 01 05 00 84 09 00 04 f0 9f 98 80 00'
  for (const written of forms) {
    for (const [number, vector] of bad) {
      refused('5@4', 1, written, '01 01 05 00 82 09 00', vector)
      refused('6@8', 2, written, '00 00 00 00 00 00 02 01 ff 00 00 00 00 00', vector)
      refused('8@4', 1, written, C, vector, { blockRows: 0 })
      refused('8@7', 2, written, D, vector, { blockRows: 0, rangeRows: 0, room: 0 })
      refused('8@6', 1, written, '00 01 05 02 00 01 01 01', vector, { blockRows: 0, rangeRows: 1 })
      refused(`${number}@0`, 1, written, C, vector)
      refused(`${number}@0`, 2, written, D, vector, { blockRows: 1, rangeRows: 0, room: 0 })
      refused(`${number}@0`, 1, written, A, vector, { blockRows: 0, rangeRows: 0, room: 0 })
      refused(`${number}@0`, 1, written, pairs, vector)
      refused(`${number}@0`, 1, written, '01 01 05 00 81 09 80 80 80 80 04 01 00', vector)
    }
    // Short rows come before 9 and 13 as well; 9 and 13 before 10.
    refused('8@4', 1, written, pairs, '01 05 01', { blockRows: 0 })
    refused('9@0', 1, written, pairs, '01 05 01', { room: 0 })
    refused('8@4', 1, written, '01 01 05 00 81 09 80 80 80 80 04 01 00', '00', { blockRows: 0, room: 0 })
    // 9's block has left clock 2^30, 5's text would be cut in the pair.
    const both = '02 01 09 00 81 05 80 80 80 80 04 01 01 05 00 84 09 00 04 f0 9f 98 80 00'
    refused('9@0', 1, written, both, '01 05 01')
    refused('9@0', 1, written, both, '01 05 01', { room: 0 })
    refused(written === 1 ? '10@0' : '13@0', 1, written, both, '00', { room: 0 })
    refused(written === 1 ? '10@0' : '13@0', 1, written, both, '01 05 02', { room: 5 })
    // Ranges that are joined have taken their rows; an item of length 0 takes none.
    refused('8@6', 1, written, '00 01 05 02 00 01 01 01', '00', { rangeRows: 1 })
    w(diff(1, written, '00 01 05 02 00 01 01 01', '00', { blockRows: 0, rangeRows: 2 }),
      `0 ${written === 1 ? '000105010002' : '0000000000000100000000000105010001'} ; blocks 0 ranges 1 5.0.2 zero`)
    w(diff(1, written, '01 01 05 01 81 09 00 00 00', '00', { blockRows: 0, rangeRows: 0 }), `0 ${hex(bytes(written === 1 ? A : B))} ; blocks 0 ranges 0 zero`)
    refused('10@0', 1, written, A, '00', { room: 0 })
    refused('10@0', 2, written, B, '00', { room: 1 })
  }
}

// Where Yjs's own diff is another: our line, and what Yjs writes (null: it throws).
const parts = (what, written, update, vector, line, theirs) => {
  w(diff(1, written, update, vector), `${line} zero`)
  const out = yjs.theirs(1, written, bytes(update), bytes(vector))
  if ((out === null ? null : hex(out)) !== theirs) throw new Error(`${what}: Yjs writes ${out && hex(out)}`)
}
const partings = () => {
  parts('section order', 1, '020105000001010900000100', '00', '0 020109000001010500000100 ; blocks 2 5.0.1.gc.-.-.-.-.-.-.-.- 9.0.1.gc.-.-.-.-.-.-.-.- ranges 0', '020105000001010900000100')
  parts('section order, form 2', 2, '020105000001010900000100', '00',
    '0 00000209050000010001000000024100020100010000 ; blocks 2 5.0.1.gc.-.-.-.-.-.-.-.- 9.0.1.gc.-.-.-.-.-.-.-.- ranges 0', '00000205090000010001000000024100020100010000')
  parts('cut in a pair', 1, '0101050084090004f09f988000', '010501', '9@0', '0101050184050003efbfbd00')
  parts('cut in a pair, form 2', 2, '0101050084090004f09f988000', '010501', '9@0', '000002450001000001840503efbfbd0100000001010100')
  parts('cut in a pair, more behind it', 1, '0101050084090005f09f98806200', '010501', '9@0', '0101050184050004efbfbd6200')
  parts('delete client without ranges', 1, '00010500', '00', '0 0000 ; blocks 0 ranges 0', '0000')
  parts('end over 2^32 - 1', 1, '010105ffffffff0f000100', '00', '3@3', '010105ffffffff0f000100')
  // Form 2 read: Yjs's own diff of a delete-set client named twice deletes (5, 128) instead of (5, 0).
  w(diff(2, 2, '000000000000010000000000020501010005010000', '00'), '0 0000000000000100000000000105010001 ; blocks 0 ranges 1 5.0.2 zero')
  w(hex(yjs.theirs(2, 2, bytes('000000000000010000000000020501010005010000'), bytes('00'))), '00000000000001000000000001050201007e00')
  parts('delete client order', 1, '00020501000109010001', '00', '0 00020901000105010001 ; blocks 0 ranges 2 9.0.1 5.0.1', '00020501000109010001')
  parts('touching ranges', 1, '0001050200010101', '00', '0 000105010002 ; blocks 0 ranges 1 5.0.2', '0001050200010101')
  parts('falling ranges', 1, '0001050201010001', '00', '0 000105010002 ; blocks 0 ranges 1 5.0.2', '0001050201010001')
  // The increase of -2 is written as 126: (5, 128) is deleted instead of (5, 0).
  parts('falling ranges, form 2', 2, '0001050201010001', '00', '0 0000000000000100000000000105010001 ; blocks 0 ranges 1 5.0.2', '00000000000001000000000001050201007e00')
  parts('overlapping ranges', 1, '0001050200050102', '00', '0 000105010005 ; blocks 0 ranges 1 5.0.5', '0001050200050102')
  parts('overlapping ranges, form 2', 2, '0001050200050102', '00', '0 0000000000000100000000000105010004 ; blocks 0 ranges 1 5.0.5', '00000000000001000000000001050200047c01')
  parts('delete client twice', 1, '00020501010105010001', '00', '0 000105010002 ; blocks 0 ranges 1 5.0.2', '0001050201010001')
  parts('range of length 0', 1, '000105010300', '00', '0 0000 ; blocks 0 ranges 0', '000105010300')
  parts('range of length 0, form 2', 2, '000105010300', '00', '0 00000000000001000000000000 ; blocks 0 ranges 0', null)
  parts('item of length 0', 1, '010105018109000000', '00', '0 0000 ; blocks 0 ranges 0', '010105018109000000')
  parts('Skip behind an item of length 0', 1, '01020501810900000a0200', '00', '0 0000 ; blocks 1 5.1.2.skip.-.-.-.-.-.-.-.- ranges 0', '01020501810900000a0200')
  parts('vector names a client twice', 1, C, '0205000501', '4@0', '01010501840500016900')
  parts('client in two sections', 1, '02010500040101740161010501840500016200', '00', '4@11', '01020500040101740161840500016200')
  parts('difference 2^30', 2, '01010500810980808080040100', '00', '13@0', '000002050905808080801000018101000000010101010000')
  parts('difference -2^30-1', 2, '010305008109ffffffff03018109feffffff07018109fdffffff030100', '00', '13@0',
    '0000030549010bbfffffff0f00c2808080100001810100000002410101030000')
}

module.exports = { all: () => [kept, differences, order, partings].forEach(part => part()) }
