// Writes the update stream of the case program and what it is expected to print: updates.cjs FOLDER writes FOLDER/updates.stdin and FOLDER/updates.stdout.
// The same every time. `run` beside it installs what this needs.
'use strict'
const fs = require('fs')
const path = require('path')
const model = require('./update-model.cjs')
const yjs = require('./yjs.cjs')
const c = require('./update-cases.cjs')
const s = require('./spelling.cjs')
const stream = require('./stream.cjs')
const { gc, skip, gone, section, replaced, letters, ...shape } = require('./shapes.cjs')
const { begin, many } = require('./random.cjs')
const fixtures = require('./yjs-fixtures.json').fixtures

const folder = process.argv[2]
const { Y } = yjs
const loose = begin(0x1f123bb5)
const { random, pick } = loose
const documents = require('./documents.cjs').begin(loose)
const { some, damaged } = shape.begin(loose)
const { bytes } = stream
const p = k => 2n ** BigInt(k)
const forms = [1, 2]
const w = stream.worked
const SAFE = p(53) - 1n
const CLOCK = p(31) - 1n

// ---- worked by hand, by document 01 and the readings of it in docs/DECISIONS.md

const read = (form, text, ...rows) => c.read(form, bytes(text), ...rows)
const content = (form, n, text) => c.content(form, n, bytes(text))
const vector = text => c.readVector(bytes(text))
const list = text => c.list(bytes(text))
const prints = text => `0 ${Buffer.from(text).toString('hex')} zero`

// A and B: nothing. No row is needed.
w(read(1, '00 00', 0, 0), '0 blocks 0 ranges 0 zero')
w(read(2, '00 00 00 00 00 00 01 00 00 00 00 00 00', 0, 0), '0 blocks 0 ranges 0 zero')
// C: the name's byte stands at 7, after parent info and length; the text's two at 9.
const C = '01 01 05 00 04 01 01 74 02 68 69 00'
w(read(1, C), '0 blocks 1 5.0.2.text.-.-.7+1.-.-.9+2.-.- ranges 0 zero')
w(read(1, C, 1, 0), '0 blocks 1 5.0.2.text.-.-.7+1.-.-.9+2.-.- ranges 0 zero')
// D: the text column's text stands at 10 to 12, behind the column's length and its own.
const D = '00 00 01 05 00 00 01 04 06 03 74 68 69 01 02 01 01 00 00 01 01 00 00'
w(read(2, D, 1, 0), '0 blocks 1 5.0.2.text.-.-.10+1.-.-.11+2.-.- ranges 0 zero')
// Content is the text itself. There is no block 1, and no form 3.
w(content(1, 0, C), '0 6869')
w(content(2, 0, D), '0 6869')
w(content(1, 1, C), '11@0')
w(content(2, p(64) - 1n, D), '11@0')
w(content(3, 0, C), '12@0')
w(read(3, ''), '12@0 zero')
w(read(0, C, 0, 0), '12@0 zero')
// The whole update is read before a content is handed out: C without its delete set ends early, whatever n.
w(content(1, 0, '01 01 05 00 04 01 01 74 02 68 69'), '1@11')
w(content(1, 7, '01 01 05 00 04 01 01 74 02 68 69'), '1@11')
w(content(1, p(64) - 1n, '01 01 05 00 82 09 00'), '5@4')
w(content(2, p(63), '00 00 00 00 00 00 02 01 ff 00 00 00 00 00'), '6@8')
// No byte at all, and a section count with no delete set behind it.
w(read(1, ''), '1@0 zero')
w(read(2, ''), '1@0 zero')
w(read(1, '00'), '1@1 zero')
// Content 2 is refused when it is reached: the left id is missing, then it is there.
w(read(1, '01 01 05 00 82'), '1@5 zero')
w(read(1, '01 01 05 00 82 09 00'), '5@4 zero')
// So with parent and key: the name is not UTF-8, and that comes first.
w(read(1, '01 01 05 00 22 01 01 ff'), '6@7 zero')
w(read(1, '01 01 05 00 22 01 01 74 01 6b'), '5@4 zero')
// A row is asked for when its block is complete: no row is 8 though the delete set is missing; with a row, that is 1.
w(read(1, '01 01 05 00 04 01 01 74 02 68 69', 0, 0), '8@4 zero')
w(read(1, '01 01 05 00 04 01 01 74 02 68 69', 1, 0), '1@11 zero')
w(read(1, '01 01 05 00 04 01 01 74 02 68', 0, 0), '1@10 zero')
// A block's end beats its row: a GC of length 1 at 2^31 - 1. One of length 0 is kept and takes a row.
w(read(1, '01 01 05 ff ff ff ff 07 00 01 00', 0, 0), '3@8 zero')
w(read(1, '01 01 05 ff ff ff ff 07 00 00 00', 1, 0), '0 blocks 1 5.2147483647.0.gc.-.-.-.-.-.-.-.- ranges 0 zero')
w(read(1, '01 01 05 ff ff ff ff 07 00 00 00', 0, 0), '8@8 zero')
w(read(1, '01 01 05 03 0a 00 00', 1, 0), '0 blocks 1 5.3.0.skip.-.-.-.-.-.-.-.- ranges 0 zero')
// An item of length 0 is dropped and takes no row; the block behind it is number 0.
w(read(1, '01 02 05 00 01 01 01 74 00 04 01 01 74 01 61 00', 1, 0), '0 blocks 1 5.0.1.text.-.-.12+1.-.-.14+1.-.- ranges 0 zero')
w(content(1, 0, '01 02 05 00 01 01 01 74 00 04 01 01 74 01 61 00'), '0 61')
w(content(1, 1, '01 02 05 00 01 01 01 74 00 04 01 01 74 01 61 00'), '11@0')
// Skip of 3, then a text with left id (5, 2): each block starts where the one before ended. The Skip has no content.
w(read(1, '01 02 05 00 0a 03 84 05 02 01 62 00'), '0 blocks 2 5.0.3.skip.-.-.-.-.-.-.-.- 5.3.1.text.5:2.-.-.-.-.10+1.-.- ranges 0 zero')
w(content(1, 0, '01 02 05 00 0a 03 84 05 02 01 62 00'), '11@0')
w(content(1, 1, '01 02 05 00 0a 03 84 05 02 01 62 00'), '0 62')
// e4 is left id, right id, bit 32 and text: with an id there is no parent and no key, whatever bit 32 says.
w(read(1, '01 01 05 00 e4 09 01 07 02 01 78 00'), '0 blocks 1 5.0.1.text.9:1.7:2.-.-.-.10+1.-.- ranges 0 zero')
// 23 is bit 32 and binary: parent info 0 (or 2: all but 1) and an id, then the key, then two bytes.
w(read(1, '01 01 05 00 23 00 09 04 01 6b 02 ff 00 00'), '0 blocks 1 5.0.1.binary.-.-.-.9:4.9+1.11+2.-.- ranges 0 zero')
w(read(1, '01 01 05 00 23 02 09 04 01 6b 02 ff 00 00'), '0 blocks 1 5.0.1.binary.-.-.-.9:4.9+1.11+2.-.- ranges 0 zero')
w(content(1, 0, '01 01 05 00 23 00 09 04 01 6b 02 ff 00 00'), '0 ff00')
// An empty binary has clock length 1 and is a part of no bytes.
w(read(1, '01 01 05 00 83 05 00 00 00'), '0 blocks 1 5.0.1.binary.5:0.-.-.-.-.8+0.-.- ranges 0 zero')
w(content(1, 0, '01 01 05 00 83 05 00 00 00'), '0 -')
// A text of two bytes and one unit, and one of four bytes and two: the next block starts at 3.
w(read(1, '01 03 05 00 84 05 00 02 c3 a9 84 05 00 04 f0 9f 98 80 81 05 00 01 00'),
  '0 blocks 3 5.0.1.text.5:0.-.-.-.-.8+2.-.- 5.1.2.text.5:0.-.-.-.-.14+4.-.- 5.3.1.deleted.5:0.-.-.-.-.-.-.- ranges 0 zero')
// A text's bytes are there before they are looked at: two are announced and one, which is not UTF-8, is there.
w(read(1, '01 01 05 00 04 01 02 ff'), '1@8 zero')
w(read(1, '01 01 05 00 04 01 01 ff'), '6@7 zero')
// Ranges (10, 2), (0, 2), (2, 3): sorted, and the last two touch. They take three rows as they are read.
w(read(1, '00 01 05 03 0a 02 00 02 02 03', 0, 3), '0 blocks 0 ranges 2 5.0.5 5.10.2 zero')
w(read(1, '00 01 05 03 0a 02 00 02 02 03', 0, 2), '8@8 zero')
w(read(1, '00 01 05 02 00 01 01 01', 0, 1), '8@6 zero')
// An empty range is gone and takes no row, but it has an end.
w(read(1, '00 01 05 01 03 00', 0, 0), '0 blocks 0 ranges 0 zero')
w(read(1, '00 01 05 01 ff ff ff ff 07 00', 0, 0), '0 blocks 0 ranges 0 zero')
// A range's end beats its row, and its row beats what comes after it.
w(read(1, '00 01 05 01 ff ff ff ff 07 01', 0, 0), '3@4 zero')
w(read(1, '00 01 05 02 00 01', 0, 0), '8@4 zero')
w(read(1, '00 01 05 02 00 01', 0, 1), '1@6 zero')
// Highest client first; a client named twice is one.
w(read(1, '00 02 05 01 00 01 09 01 03 01', 0, 2), '0 blocks 0 ranges 2 9.3.1 5.0.1 zero')
w(read(1, '00 02 05 01 00 02 05 01 01 05', 0, 2), '0 blocks 0 ranges 1 5.0.6 zero')
// A repeated client is refused with its id, before its first clock (which is missing), though neither section has a block.
w(read(1, '02 00 05 00 00 05'), '4@5 zero')
w(read(1, '02 00 05 00 00 06'), '1@6 zero')
// Counts are tested when read: 65 sections, 65,536 blocks, 65 delete-set clients, with nothing behind them.
w(read(1, '41'), '3@0 zero')
w(read(1, '40'), '1@1 zero')
w(read(1, '01 80 80 04'), '3@1 zero')
w(read(1, '01 ff ff 03'), '1@4 zero')
w(read(1, '00 41'), '3@1 zero')
w(read(1, '00 40'), '1@2 zero')
// A range count has no limit, so 2^63 - 1 ranges end early.
w(read(1, '00 01 05 ff ff ff ff ff ff ff ff 7f 00 01'), '1@14 zero')
// Nine bytes that all say more; eight.
w(read(1, '80 80 80 80 80 80 80 80 80'), '2@0 zero')
w(read(1, '80 80 80 80 80 80 80 80'), '1@8 zero')
// A nine-byte zero is a number: C's first clock in nine bytes.
w(read(1, '01 01 05 80 80 80 80 80 80 80 80 00 04 01 01 74 02 68 69 00'), '0 blocks 1 5.0.2.text.-.-.15+1.-.-.17+2.-.- ranges 0 zero')
// Form 2: the text column has no bytes, so no length. It is one byte that says one byte. It is not UTF-8, though no text is drawn, and though 65 sections follow.
w(read(2, '00 00 00 00 00 00 00 00 00 00 00 00'), '1@7 zero')
w(read(2, '00 00 00 00 00 00 01 01 00 00 00 00 00'), '1@8 zero')
w(read(2, '00 00 00 00 00 00 02 01 ff 00 00 00 41'), '6@8 zero')
// All nine columns are cut before the text is opened: the ninth is missing.
w(read(2, '00 00 00 00 00 00 02 01 ff 00 00'), '1@11 zero')
// Nothing is drawn from key and type column: ff is no number. The flag is any byte.
w(read(2, 'ff 01 ff 01 05 00 00 01 04 06 03 74 68 69 01 02 01 01 01 ff 00 01 01 00 00'), '0 blocks 1 5.0.2.text.-.-.11+1.-.-.12+2.-.- ranges 0 zero')
// Left and parent ids share the left clock column (4, then 6 by a difference of 2), right ids have their own. Clients: 5, then 9 twice, then 8.
const ids = '00 00 04 05 49 00 08 02 08 04 01 0e 05 81 00 41 00 01 01 00 01 00 00 02 41 01 01 03 00 00'
w(read(2, ids, 3, 0), '0 blocks 3 5.0.1.deleted.9:4.-.-.-.-.-.-.- 5.1.1.deleted.-.9:7.-.-.-.-.-.- 5.2.1.deleted.-.-.-.8:6.-.-.-.- ranges 0 zero')
w(content(2, 2, ids), '11@0')
// Form 2 deletes: (3, 1), then 0 after its end and length 1 + 1: they touch. From 0 again for the second client.
w(read(2, '00 00 00 00 00 00 01 00 00 00 00 00 02 05 02 03 00 00 01 09 01 02 00', 0, 3), '0 blocks 0 ranges 2 9.2.1 5.3.3 zero')
w(read(2, '00 00 00 00 00 00 01 00 00 00 00 00 02 05 02 03 00 00 01 09 01 02 00', 0, 2), '8@21 zero')
// (2^31 - 2, 1) ends at 2^31 - 1; the next clock is one more; or it is that end, and its range ends over the limit.
w(read(2, '00 00 00 00 00 00 01 00 00 00 00 00 01 05 01 fe ff ff ff 07 00'), '0 blocks 0 ranges 1 5.2147483646.1 zero')
w(read(2, '00 00 00 00 00 00 01 00 00 00 00 00 01 05 02 fe ff ff ff 07 00 01'), '3@21 zero')
w(read(2, '00 00 00 00 00 00 01 00 00 00 00 00 01 05 02 fe ff ff ff 07 00 00'), '1@22 zero')
w(read(2, '00 00 00 00 00 00 01 00 00 00 00 00 01 05 02 fe ff ff ff 07 00 00 00'), '3@21 zero')
// A stored length of 2^31 - 2 is 2^31 - 1, one more is over the limit.
w(read(2, '00 00 00 00 00 00 01 00 00 00 00 00 01 05 01 00 fe ff ff ff 07'), '0 blocks 0 ranges 1 5.0.2147483647 zero')
w(read(2, '00 00 00 00 00 00 01 00 00 00 00 00 01 05 01 00 ff ff ff ff 07'), '3@16 zero')
// A Skip's length is in the rest, a GC's in the length column: 0a 00 00 is Skip, then GC without end; rest 07, length column 03.
w(read(2, '00 00 01 05 00 00 03 0a 00 00 01 00 00 00 01 03 01 02 00 07 00'), '0 blocks 2 5.0.7.skip.-.-.-.-.-.-.-.- 5.7.3.gc.-.-.-.-.-.-.-.- ranges 0 zero')
// An id is its client, then its clock: the client column ends (1) where the clock column would say 3, and the other way round. For left, right and parent ids.
// The client column lies at 3 and has an end at 4, or a second value; the left clocks then begin at 6, the right clocks at 7 if there is no left one.
for (const [clocks, block] of [[6, { info: [0x81], left: [0x44] }], [7, { info: [0x41], right: [0x44] }], [6, { info: [1], parent: [0], left: [0x44] }]]) {
  w(c.read(2, s.two({ client: [5], ...block, rest: [1, 1, 0, 0] })), '1@4 zero')
  w(c.read(2, s.two({ client: [5, 9], ...block, rest: [1, 1, 0, 0] })), `3@${clocks} zero`)
  w(c.read(2, s.two({ client: [5, ...bytes('80 80 80 80 80 80 80 20')], info: block.info, parent: block.parent, rest: [1, 1, 0, 0] })), '3@4 zero')
  w(c.read(2, s.two({ client: [5, 9], info: block.info, parent: block.parent, rest: [1, 1, 0, 0] })), `1@${clocks} zero`)
}
// A number is tested when it is read: nothing follows it. Section client and first clock; left, right and parent id; parent info; GC, Skip and deleted
// length, and an end; delete-set client, a range's clock, length and end. Its place is beside it: for an end the info byte's, or the range's clock's.
const [over53, over31, most31] = ['80 80 80 80 80 80 80 10', '80 80 80 80 08', 'ff ff ff ff 07']
for (const [place, text] of [[2, `01 00 ${over53}`], [3, `01 00 05 ${over31}`], [5, `01 01 05 00 81 ${over53}`], [6, `01 01 05 00 81 09 ${over31}`],
  [5, `01 01 05 00 41 ${over53}`], [6, `01 01 05 00 41 09 ${over31}`], [6, `01 01 05 00 01 00 ${over53}`], [7, `01 01 05 00 01 00 09 ${over31}`],
  [5, `01 01 05 00 01 ${over31}`], [5, `01 01 05 00 00 ${over31}`], [5, `01 01 05 00 0a ${over31}`], [7, `01 01 05 00 81 09 00 ${over31}`],
  [8, `01 01 05 ${most31} 00 01`], [8, `01 01 05 ${most31} 0a 01`], [8, `01 01 05 ${most31} 81 09 00 01`], [8, `01 01 05 ${most31} 83 09 00 00`],
  [8, `01 01 05 ${most31} 84 09 00 01 61`], [2, `00 01 ${over53}`], [4, `00 01 05 01 ${over31}`], [5, `00 01 05 01 00 ${over31}`],
  [4, `00 01 05 01 01 ${most31}`]]) w(read(1, text, 0, 0), `3@${place} zero`)
for (const text of [`01 ${over53}`, `01 05 ${over31}`]) w(vector(text), '3@0 zero')
// So in form 2, where the length column's value is the GC's, and ranges are tested as restored. The rest begins at 11, a byte later for each of the columns.
for (const [place, columns] of [
  [3, { client: bytes('80 80 80 80 80 80 80 20'), rest: [1, 0] }],
  [14, { client: [5], rest: bytes(`01 00 ${over31}`) }],
  [13, { client: [5], info: [0], length: bytes('80 80 80 80 10'), rest: [1, 1, 0] }],
  [7, { client: [5], info: [0], length: [1], rest: bytes(`01 01 ${most31}`) }],
  [16, { client: [5], info: [10], rest: bytes(`01 01 00 ${over31}`) }],
  [13, { rest: bytes(`00 01 ${over53}`) }],
  [15, { rest: bytes(`00 01 05 01 ${over31}`) }],
  [16, { rest: bytes(`00 01 05 01 00 ${most31}`) }],
  [15, { rest: bytes(`00 01 05 01 01 fe ff ff ff 07`) }]
]) w(c.read(2, s.two(columns), 0, 0), `3@${place} zero`)
// Unread bytes are accepted.
w(read(1, '00 00 ff'), '0 blocks 0 ranges 0 zero')
w(read(2, '00 01 00 01 05 01 00 01 00 01 00 02 00 05 01 00 01 00 01 00 00 00 ff'), '0 blocks 0 ranges 0 zero')
// State vectors: none, two in reading order, a byte left over, the client again with its id (its clock is missing), 65 entries, an end, 2^53, 2^31.
w(vector('00'), '0 zero')
w(vector('02 05 01 09 03'), '0 5:1 9:3 zero')
w(vector('02 09 03 05 01 ff'), '0 9:3 5:1 zero')
w(vector('02 05 00 05'), '4@0 zero')
w(vector('02 05 00 06'), '1@0 zero')
w(vector('41'), '3@0 zero')
w(vector(''), '1@0 zero')
w(vector('01 80 80 80 80 80 80 80 10'), '3@0 zero')
w(vector('01 80 80 80 80 80 80 80 10 01'), '3@0 zero')
w(vector('01 05 80 80 80 80 08'), '3@0 zero')
w(vector('01 ff ff ff ff ff ff ff 0f ff ff ff ff 07'), '0 9007199254740991:2147483647 zero')
w(vector('01 80 80 80 80 80 80 80 80 80 00'), '2@0 zero')
// The listing: document 01's example, nothing at all, no form, the constant of its own form and of the other, a constant with a byte left over.
w(list('01' + C), prints('update form 1 blocks 1 ranges 0\n5 0 2 text\nend\n'))
w(list('02' + D), prints('update form 2 blocks 1 ranges 0\n5 0 2 text\nend\n'))
w(list(''), prints('refused 1 at 0\n'))
w(list('00'), prints('refused 12 at 0\n'))
w(list('03 00 00'), prints('refused 12 at 0\n'))
w(list('01'), prints('refused 1 at 0\n'))
w(list('02'), prints('refused 1 at 0\n'))
w(list('01 00 00'), prints('empty\n'))
w(list('02 00 00 00 00 00 00 01 00 00 00 00 00 00'), prints('empty\n'))
w(list('01 00 00 00 00 00 00 01 00 00 00 00 00 00'), prints('update form 1 blocks 0 ranges 0\nend\n'))
w(list('02 00 00'), prints('refused 1 at 2\n'))
w(list('01 00 00 00'), prints('update form 1 blocks 0 ranges 0\nend\n'))
w(list('02 00 00 00 00 00 00 01 00 00 00 00 00 00 00'), prints('update form 2 blocks 0 ranges 0\nend\n'))
w(list('02 01 00 00 00 00 00 01 00 00 00 00 00 00'), prints('update form 2 blocks 0 ranges 0\nend\n'))
w(list('01 80 00 00'), prints('update form 1 blocks 0 ranges 0\nend\n'))
w(list('01 01 02 05 00 0a 03 00 02 01 05 02 09 01 00 03'), prints('update form 1 blocks 2 ranges 2\n5 0 3 skip\n5 3 2 gc\n5 0 3\n5 9 1\nend\n'))
w(list('01' + '01 01 05 00 82 09 00'), prints('refused 5 at 4\n'))

// ---- document 01 against Yjs, the lines of docs/DIFFERENCES.md that can be read: our line, and what Yjs reads (null: it throws)

const differs = (what, form, text, line, theirs) => {
  w(read(form, text), line)
  const r = yjs.read(form, bytes(text))
  const ranges = () => [...r.ds.clients].flatMap(([client, all]) => all.map(d => `${client} ${d.clock} ${d.len}`))
  const found = r === null ? null : [...r.structs.map(yjs.theirRecord), ...ranges()].join(', ')
  if (found !== theirs) throw new Error(`${what}: Yjs reads ${found}`)
}
const none = 'none none none none none none none none'
differs('low bits 0 with other bits', 1, '010105008005000300', '5@4 zero', `5 0 5 gc ${none}`)
differs('low bits 10 with other bits', 1, '010105008a09000300', '5@4 zero', null)
differs('flag is a number', 2, '80' + D.slice(2), '0 blocks 1 5.0.2.text.-.-.10+1.-.-.11+2.-.- ranges 0 zero', '')
differs('item of length 0', 1, '01020500010101740004010174016100', '0 blocks 1 5.0.1.text.-.-.12+1.-.-.14+1.-.- ranges 0 zero',
  '5 0 0 deleted none none <74> none none none none none, 5 0 1 text none none <74> none none <61> none none')
differs('client in two sections', 1, '02010500040101740161010501840500016200', '4@11 zero',
  '5 0 1 text none none <74> none none <61> none none, 5 1 1 text 5:0 none none none none <62> none none')
differs('delete ranges unsorted, touching', 1, '000105030a0200020203', '0 blocks 0 ranges 2 5.0.5 5.10.2 zero', '5 10 2, 5 0 2, 5 2 3')
differs('delete range of length 0', 1, '000105010300', '0 blocks 0 ranges 0 zero', '5 3 0')
differs('delete client twice, falling', 2, '000000000000010000000000020501010005010000', '0 blocks 0 ranges 1 5.0.2 zero', '5 1 1, 5 0 1')
differs('column read past its end', 2, '0000010500000100010000000001010000', '1@13 zero', `5 0 0 gc ${none}`)
differs('text past its column', 2, '00000000000001010000000000', '1@8 zero', '')
differs('units past the text', 2, '0000010500000104060374686901030101000001010000', '7@11 zero', '5 0 2 text none none <74> none none <6869> none none')
differs('units end in a pair', 2, '0000010500000104080574f09f988041000101000001010000', '7@11 zero', '5 0 1 text none none <74> none none <efbfbd> none none')
differs('clock below zero', 2, '0000020509014400018101000000010201010000', '3@6 zero', '5 0 2 deleted 9:-2 none none none none none none none')
differs('difference of 2^30', 2, '000002050905808080801000018101000000010201010000', '3@6 zero', '5 0 2 deleted 9:1073741824 none none none none none none none')
differs('clock 2^31', 1, '0101058080808008000100', '3@3 zero', `5 2147483648 1 gc ${none}`)
differs('length 2^31', 1, '0101050000808080800800', '3@5 zero', `5 0 2147483648 gc ${none}`)
differs('end 2^31', 1, '010105ffffffff07000100', '3@8 zero', `5 2147483647 1 gc ${none}`)
differs('client 2^53', 1, '0101808080808080801000000100', '3@2 zero', `9007199254740992 0 1 gc ${none}`)
differs('parent info 2^31', 1, '0101050001808080800809000200', '3@5 zero', '5 0 2 deleted none none none 9:0 none none none none')
differs('stored run count 2147483646', 2, '0000010500000100010000000642feffffff0701010000', '3@14 zero', `5 0 2 gc ${none}`)
differs('number of ten bytes', 1, '8080808080808080800000', '2@0 zero', '')
differs('content 20', 1, '0101050014010174016100', '5@4 zero', null)
differs('content 17', 1, '01010500110101740100', '5@4 zero', null)
differs('content 19', 1, '0101050013010174016100', '5@4 zero', null)
differs('content 22', 1, '01010500160101740162013100', '5@4 zero', null)
differs('content 23', 1, '01010500170101740100', '5@4 zero', null)
differs('content 24', 1, '0101050018010174017e00', '5@4 zero', null)
differs('content 2', 1, '0101050082090001013100', '5@4 zero', '5 0 1 ContentJSON 9:0 none none none none none none none')
differs('content 5', 1, '0101050005010174027b7d00', '5@4 zero', '5 0 1 ContentEmbed none none <74> none none none none none')
differs('content 9', 1, '010105002901016d016b0167760000', '5@4 zero', '5 0 1 ContentDoc none none <6d> none <6b> none none none')
differs('sections announced', 1, '80808008', '3@0 zero', null)
differs('blocks announced', 1, '01ffffffff0f0500', '3@1 zero', null)
differs('end over 2^32 - 1', 1, '010205ffffffff0f0001000100', '3@3 zero', `5 4294967295 1 gc ${none}, 5 4294967296 1 gc ${none}`)
differs('column length cut', 2, '0080', '1@2 zero', null)
differs('text length cut', 2, '00000000000001800000000000', '1@8 zero', null)
differs('column length in ten bytes', 2, '00808080808080808080000000000001000000000000', '2@1 zero', '')
differs('column length in eleven bytes', 2, '008080808080808080808001', '2@1 zero', null)
differs('column length 2^64 - 1', 2, '00ffffffffffffffffff01', '2@1 zero', null)
differs('client column read past its end', 2, '0000000000010001000000010101010000', '1@3 zero', `0 0 1 gc ${none}`)
differs('unit lengths read past their end', 2, '0000010500000104030274740101000001010000', '1@12 zero', '5 0 0 text none none <> none none <> none none')
differs('length 2^32 + 1', 2, '00000105000001000100000005818080802001010000', '3@13 zero', `5 0 4294967297 gc ${none}`)
differs('delete clock over 2^32 - 1', 2, '0000000000000100000000000105020100ffffffff0f00', '3@17 zero', '5 1 1, 5 4294967297 1')
differs('delete client without ranges', 1, '00010500', '0 blocks 0 ranges 0 zero', '')
// 65,536 blocks, which Yjs reads, and 2^31 - 1, which it is not asked.
w(read(2, '0000010500000100010000000441feff03018080040000'), '3@18 zero')
w(read(2, '0000010500000100010000000640fdffffff0701ffffffff070000'), '3@20 zero')
w(vector('010580808080808080808000'), '2@0 zero')
differs('65 sections', 1, '41' + many(65, k => '00' + (0x3f + k).toString(16).padStart(2, '0') + '00').join('') + '00', '3@0 zero', '')
differs('65 delete-set clients', 1, '0041' + many(65, k => (0x3f + k).toString(16).padStart(2, '0') + '00').join(''), '3@1 zero', '')
// 2^31 blocks are announced, info 0 stands without end, and the length column has no byte: Yjs makes blocks of nothing until its memory ends, so it is not asked.
w(read(2, '00 00 00 00 00 01 00 01 00 00 00 00 01 80 80 80 80 08 00 00'), '3@13 zero')
// These part in a diff or in the sorter; both read them, and read the same.
for (const text of ['0201050004010174016101090004010174016200', '010105000401017404f09f988000', '0101050304010174016100']) read(1, text)
w(vector('0205000501'), '4@0 zero')
{
  // A string in a map is content 8. In form 2 its count stands in the length column, its bytes in the rest.
  const doc = documents.document(5, true)
  doc.getMap('m').set('k', 'v')
  w(c.read(1, [...Y.encodeStateAsUpdate(doc)]), '0 blocks 1 5.0.1.any.-.-.7+1.-.9+1.11+3.-.- ranges 0 zero')
  w(c.read(2, [...Y.encodeStateAsUpdateV2(doc)]), '0 blocks 1 5.0.1.any.-.-.10+1.-.11+1.22+3.-.- ranges 0 zero')
  // Two halves of a pair, inserted apart: in form 2 Yjs joins its texts and writes one character, with unit lengths that end inside it.
  const halves = documents.document(5, true)
  halves.getText('a').insert(0, '\ud83d')
  halves.getText('a').insert(0, '\ude00')
  w(c.read(1, [...Y.encodeStateAsUpdate(halves)]), '0 blocks 2 5.0.1.text.-.-.7+1.-.-.9+3.-.- 5.1.1.text.-.5:0.-.-.-.16+3.-.- ranges 0 zero')
  w(c.read(2, [...Y.encodeStateAsUpdateV2(halves)]), '7@15 zero')
}

// ---- updates by Yjs

const { made, vectors } = documents.histories(56)
// Rows that are just enough, or plenty; now and then one too few of either.
const enough = ({ form, update }, k) => {
  const r = c.whole(form, update)
  if (r.number !== 0) return c.read(form, update)
  const [b, d] = [r.blocks.length, r.rangesRead]
  c.read(form, update, ...(k % 3 === 0 ? [512, 1024] : [b, d]))
  if (k % 7 === 0 && b > 0) c.read(form, update, b - 1, d)
  if (k % 7 === 1 && d > 0) c.read(form, update, b, d - 1)
}
made.forEach(enough)
const readable = made.filter(({ form, update }) => c.whole(form, update).number === 0)
if (readable.length < 1000) throw new Error(`just ${readable.length} updates by Yjs read`)
// What they have in them: how many of each form.
const features = {
  ...Object.fromEntries(['gc', 'skip', 'deleted', 'binary', 'text', 'type'].map(kind => [kind, (r, update) => r.blocks.some(b => b.kind === kind)])),
  pairs: (r, update) => r.blocks.some(b => b.kind === 'text' && update.slice(b.part.place, b.part.place + b.part.bytes).some(x => x >= 0xf0)),
  'left id': r => r.blocks.some(b => b.left !== null),
  'right id': r => r.blocks.some(b => b.right !== null),
  name: r => r.blocks.some(b => b.name !== null),
  'parent id': r => r.blocks.some(b => b.parent !== null),
  key: r => r.blocks.some(b => b.key !== null),
  'empty binary': r => r.blocks.some(b => b.kind === 'binary' && b.part.bytes === 0),
  'several clients': r => new Set(r.blocks.map(b => b.client)).size > 1,
  'client over 2^32': r => r.blocks.some(b => b.client > p(32)),
  'client 2^53-1': r => r.blocks.some(b => b.client === SAFE),
  ranges: r => r.ranges.length > 0,
  'only ranges': r => r.blocks.length === 0 && r.ranges.length > 0
}
const has = Object.entries(features).map(([what, test]) => {
  const n = forms.map(f => readable.filter(({ form, update }) => form === f && test(c.whole(form, update), update)).length)
  if (Math.min(...n) < 10) throw new Error(`too few updates by Yjs with ${what}: ${n}`)
  return `${what} ${n.join('+')}`
})
// Contents: some blocks, the last one, and past it. Listings.
readable.forEach(({ form, update }, k) => {
  const blocks = c.whole(form, update).blocks.length
  if (k % 4 === 0) for (const n of new Set([random(blocks + 1), random(blocks + 1), Math.max(blocks - 1, 0), blocks])) c.content(form, n, update)
  if (k % 5 === 0) c.list([form, ...update])
})
for (const v of vectors) c.readVector(v)

// Yjs's own fixtures, in both forms. The text has embeds, which are refused: with these deleted it reads. The map has more blocks than are ever lent: it reads
// without one client after the other. Then with all content deleted.
const inBoth = update => [{ form: 1, update: [...update] }, { form: 2, update: [...Y.convertUpdateFormatV1ToV2(Uint8Array.from(update))] }]
const fixtureReads = ({ form, update }, what) => {
  const r = c.whole(form, update)
  if (r.number !== 0) throw new Error(`${what} is refused ${r.number} at ${r.place}`)
  if (r.blocks.length > 512) w(stream.unplaced(c.read(form, update)), '8 zero')
  else c.read(form, update, r.blocks.length, r.rangesRead)
  c.list([form, ...update])
  return r
}
const fixtureBlocks = fixtures.map(f => {
  const update = [...Buffer.from(f.base64, 'base64')]
  const type = /Array/.test(f.name) ? 'array' : /Map/.test(f.name) ? 'map' : 'text'
  if (type === 'text') {
    for (const e of inBoth(update)) {
      w(stream.unplaced(c.read(e.form, e.update)), '5 zero')
      w(stream.unplaced(c.content(e.form, 0, e.update)), '5')
      c.list([e.form, ...e.update])
    }
  }
  const doc = documents.document(77, true)
  Y.applyUpdate(doc, Uint8Array.from(update))
  const plain = type === 'text' ? documents.withoutEmbeds(doc) : update
  const blocks = inBoth(plain).map(e => fixtureReads(e, f.name).blocks.length)
  if (blocks[0] > 512) {
    for (const [client, clock] of Y.decodeStateVector(Y.encodeStateVectorFromUpdate(Uint8Array.from(plain)))) {
      inBoth(Y.diffUpdate(Uint8Array.from(plain), Y.encodeStateVector(new Map([[client, clock]])))).forEach(e => fixtureReads(e, f.name))
    }
  }
  for (const e of documents.emptied(update, type)) {
    const r = fixtureReads(e, `${f.name}, emptied`)
    w(c.content(e.form, 0, e.update), '11@0')
    w(c.content(e.form, r.blocks.length, e.update), '11@0')
  }
  return `${type} ${blocks[0]}`
})

// ---- updates put together by hand: shapes and spellings that Yjs does not write

const shapes = []
for (let k = 0; k < 400; k++) {
  const form = forms[k % 2]
  const update = s.update(form, some(form), k % 4 < 2 ? null : loose)
  shapes.push({ form, update })
  const r = c.whole(form, update)
  if (r.number !== 0) throw new Error(`an update that should read is refused ${r.number}: form ${form}, ${stream.hex(update)}`)
  enough({ form, update }, k)
  if (k % 3 === 0 && r.blocks.length > 0) c.content(form, random(r.blocks.length), update)
  if (k % 5 === 0) c.list([form, ...update])
}
// Delete sets that overlap, touch, repeat and fall, for many clients.
for (let k = 0; k < 120; k++) {
  const form = forms[k % 2]
  const wide = pick([10, 40, 1000])
  const ranges = () => {
    let at = 0
    return many(random(12), () => {
      if (form === 1) return [random(wide), random(pick([2, 5, 30]))]
      at += random(pick([2, 9]))
      const length = 1 + random(pick([2, 9]))
      at += length
      return [at - length, length]
    })
  }
  const update = s.update(form, { deletes: many(random(7), () => [BigInt(random(5)), ranges()]) }, k % 3 === 0 ? loose : null)
  const r = c.whole(form, update)
  c.read(form, update, 0, r.rangesRead)
  if (r.rangesRead > 0) c.read(form, update, 0, r.rangesRead - 1)
  if (k % 6 === 0) c.list([form, ...update])
}

// ---- every info byte, in both forms, with what its bits ask for; then with nothing behind it

for (const form of forms) {
  for (let info = 0; info < 256; info++) {
    const kind = info & 31
    const contents = {
      1: { length: 2 }, 3: { binary: [7, 8] }, 4: { text: 'é😀' }, 6: { mark: 'bold', value: form === 1 ? s.utf8('true') : [120] },
      7: { type: info >> 5, ...([3, 5].includes(info >> 5) ? { mark: 'p' } : {}) }, 8: { values: { count: 2, bytes: [125, 1, 119, 1, 97] } }
    }
    const value = info === 10 || info === 0 ? { length: 2 } : contents[kind] ?? { length: 1 }
    const block = { info, left: [9, 4], right: [8, 6], ...(info % 2 === 0 ? { name: 't' } : { parent: [7, 5] }), key: 'k', ...value }
    const after = { info: 0, length: 1 }
    const update = s.update(form, { sections: [{ client: 5, clock: 3, blocks: [block, after] }], deletes: [[5, [[3, 1]]]] })
    c.read(form, update, 2, 1)
    c.content(form, 0, update)
    c.read(form, form === 1 ? [1, 1, 5, 0, info] : s.two({ client: [5], info: [info], rest: [1, 1, 0] }))
  }
}

// ---- limits

const clients = [0n, 127n, 128n, p(31) - 1n, p(31), p(32), p(53) - 2n, p(53) - 1n, p(53), p(53) + 1n, p(62) - 1n]
const clocks = [0n, 1n, p(30) - 1n, p(30), p(31) - 2n, p(31) - 1n, p(31), p(32) - 1n, p(32), p(53) - 1n, p(53)]
for (const form of forms) {
  const all = (sections, deletes = []) => c.read(form, s.update(form, { sections, deletes }))
  for (const x of clients) {
    all([section(x, 0, gc(1))])
    all([section(x, 0)])
    all([section(5, 0, { info: 129, left: [x, 0], length: 1 })])
    all([section(5, 0, { info: 65, right: [x, 0], length: 1 })])
    all([section(5, 0, { info: 1, parent: [x, 0], length: 1 })])
    all([], [[x, [[0, 1]]]])
    all([], [[x, []]])
  }
  for (const x of clocks) {
    all([section(5, x, gc(0))])
    all([section(5, x)])
    all([section(5, x, gone(0))])
    all([section(5, 0, { info: 129, left: [9, x], length: 1 })])
    all([section(5, 0, { info: 65, right: [9, x], length: 1 })])
    all([section(5, 0, { info: 1, parent: [9, x], length: 1 })])
    for (const make of [gc, skip, gone]) {
      all([section(5, 0, make(x))])
      all([section(5, 1, make(x))])
      all([section(5, 0, gc(1), make(x), gone(0))])
      all([section(5, 0, make(x), gc(1))])
    }
    all([section(5, x, { info: 131, left: [5, 0], binary: [1] })])
    all([section(5, x, { info: 132, left: [5, 0], text: '😀' })])
    all([section(5, x, { info: 132, left: [5, 0], text: '' })])
    all([], [[5, [[x, 1]]]])
    all([], [[5, [[0, x + (form === 2 && x === 0n ? 1n : 0n)]]]])
    all([], [[5, [[1, x + (form === 2 && x === 0n ? 1n : 0n)]]]])
    all([], [[5, [[0, 1], [x + 1n, 1]]]])
    if (form === 1) all([], [[5, [[x, 0]]]])
    all([section(5, 0, { info: 1, parentInfo: form === 1 ? x : x % 256n, parent: [9, 0], length: 1 })])
  }
  // A range count with too few ranges behind it, or too many.
  for (const count of [0, 1, 3, 2 ** 31, p(53), p(63) - 1n]) c.read(form, s.update(form, { deletes: [[5, [[0, 1], [4, 1]], count]] }))
}
// The end over the limit is a later block's; then no row is left for it; a row is left for none.
for (const form of forms) {
  const update = s.update(form, { sections: [section(5, CLOCK - 2n, gc(1), gc(1), gc(1))] })
  for (const rows of [0, 1, 2, 3]) c.read(form, update, rows, 0)
}
// Clocks of ids at their limit by the steps that a difference allows: 2^30 - 1, 2^31 - 2, 2^31 - 1, one more, and back.
{
  const steps = [p(30) - 1n, p(31) - 2n, p(31) - 1n]
  const lefts = (...values) => s.update(2, { sections: [section(5, 0, ...values.map(x => ({ info: 129, left: [9, x], length: 1 })))] })
  const rights = (...values) => s.update(2, { sections: [section(5, 0, ...values.map(x => ({ info: 65, right: [9, x], length: 1 })))] })
  for (const make of [lefts, rights]) {
    for (const values of [steps, [...steps, p(31)], [...steps, p(31) - 1n - p(30)], [...steps, 0n], [p(30) - 1n, 0n], [3n, 2n, 1n, 0n], [3n, 1n, -1n], [0n, 0n, 0n]]) c.read(2, make(...values))
  }
}
// Every number of a short update in nine bytes (read) and in ten (2).
{
  const parts = [[1], [1], [5], [0], 'info', [1], [1], 't', [2], 'hi', [1], [5], [1], [0], [1]]
  const spelt = at => parts.flatMap((x, k) => x === 'info' ? [4] : typeof x === 'string' ? s.utf8(x) : k === at.k ? s.padded(x, at.size) : x)
  parts.forEach((x, k) => {
    if (typeof x !== 'string') for (const size of [2, 8, 9, 10, 11]) c.read(1, spelt({ k, size }))
  })
}

// ---- counts

for (const form of forms) {
  const update = x => s.update(form, x)
  for (const n of [63, 64, 65, 66, 128, 2 ** 31, p(53), p(63) - 1n]) {
    const some = Math.min(Number(n), 66)
    const sections = many(some, k => section(k, k, gc(1)))
    const deletes = many(some, k => [k, [[k, 1]]])
    c.read(form, update({ sections, sectionCount: n }))
    c.read(form, update({ deletes, deleteCount: n }))
    c.read(form, update({ sections: many(some, k => section(k, 0)), deletes: many(some, k => [7, []]), sectionCount: n, deleteCount: n }))
    c.list([form, ...update({ sections, deletes, sectionCount: n, deleteCount: n })])
  }
  // The client again: next to it, last of 64, with and without blocks; over the limit both times, so 3.
  c.read(form, update({ sections: [section(5, 0, gc(1)), section(5, 1, gc(1))] }))
  c.read(form, update({ sections: [section(5, 0), section(5, 0)] }))
  c.read(form, update({ sections: [...many(63, k => section(k, 0, gc(1))), section(0, 9, gc(1))] }))
  c.read(form, update({ sections: [section(p(53) - 1n, 0), section(0, 0), section(p(53) - 1n, p(31))] }))
  c.read(form, update({ sections: [section(p(53), 0), section(p(53), 0)] }))
  c.read(form, update({ sections: [section(5, 0, gc(1)), section(5, 1, gc(1))] }), 1, 0)
  c.read(form, update({ sections: [section(5, 0, gc(1)), section(5, 1, gc(1))] }), 0, 0)
  c.read(form, update({ sections: [{ count: 65536, ...section(5, 0) }, section(5, 0)] }))
  // 65,535 blocks announced in two sections, and one more: the second count is tested against what is left.
  for (const [a, b] of [[2, 65533], [2, 65534], [0, 65535], [0, 65536], [1, 65535], [1, 2 ** 31]]) {
    c.read(form, update({ sections: [section(5, 0, ...many(a, () => gc(1))), { ...section(6, 0), count: b }] }))
  }
}
// Dropped items are announced too. A run a column makes any number of them: info 81 without end, clients 5, left clocks 0, lengths 0.
const dropped = counts => s.two({
  client: counts.flatMap((n, k) => [k, ...(n === 0 ? [] : n === 1 ? [5] : [0x45, ...s.u(n - 2)])]),
  left: [1, ...s.u(65535)],
  info: [0x81],
  length: [0x40, ...s.u(65535)],
  rest: [...s.u(counts.length), ...counts.flatMap(n => [...s.u(n), 0]), 0]
})
for (const counts of [[3], [65535], [65536], [65534, 1], [65535, 0], [65535, 1], [65535, 0, 1], [1, 65534], [1, 65535], [30000, 30000, 5535], [30000, 30000, 5536]]) {
  c.read(2, dropped(counts), 0, 0)
  if (counts[0] > 30000) c.content(2, 0, dropped(counts))
}
// Lengths that end before the announced blocks do.
c.read(2, s.two({ client: [5], info: [0], length: [0x41, ...s.u(500)], rest: [1, ...s.u(503), 0, 0] }))
c.read(2, s.two({ client: [5], info: [0], length: [0x41, ...s.u(500)], rest: [1, ...s.u(502), 0, 0] }))

// ---- rows: each number of them about what is needed, and the most that are lent

for (const form of forms) {
  const update = s.update(form, {
    sections: [section(5, 0, gc(1), gone(0), skip(2), { info: 4, name: 't', text: 'hi' }), section(9, 4, gone(3), gone(0), gc(0))],
    deletes: [[5, [[0, 1], [1, 1], [5, 2]]], [3, []], [9, [[4, 1]]]]
  })
  for (let b = 0; b <= 6; b++) for (let d = 0; d <= 5; d++) c.read(form, update, b, d)
  // Short rows beat what comes after them: the update cut behind each block and each range.
  for (let n = 0; n < update.length; n++) for (const [b, d] of [[2, 4], [5, 2], [0, 0]]) c.read(form, update.slice(0, n), b, d)
  for (let n = 0; n <= 7; n++) c.content(form, n, update)
  for (const n of [p(31), p(32), p(32) + 2n, p(63), p(64) - 1n]) c.content(form, n, update)
  const blocks = n => s.update(form, { sections: [section(5, 0, ...many(n, k => k % 3 === 0 ? skip(1) : gc(1 + k % 2)))] })
  for (const n of [511, 512, 513]) {
    c.read(form, blocks(n), 512, 0)
    c.content(form, n - 1, blocks(n))
    c.list([form, ...blocks(n)])
  }
  c.read(form, blocks(512), 511, 0)
  const ranges = n => s.update(form, { deletes: [[9, many(n - 500, k => [2 * k, 1])], [5, many(500, k => [3 * k, 2])]] })
  for (const n of [1023, 1024, 1025]) {
    c.read(form, ranges(n), 0, 1024)
    c.list([form, ...ranges(n)])
  }
  c.read(form, ranges(1024), 0, 1023)
  // Touching ranges, all joined into one, take their rows all the same.
  const touching = n => s.update(form, { deletes: [[9, many(n, k => [k, 1])]] })
  c.read(form, touching(1024), 0, 1024)
  c.read(form, touching(1025), 0, 1024)
}
// Falling ranges in form 1, and empty ones that take no row.
c.read(1, s.update(1, { deletes: [[9, many(1024, k => [3 * (1024 - k), 1 + k % 3])]] }), 0, 1024)
c.read(1, s.update(1, { deletes: [[9, many(2000, k => [k, k % 2])]] }), 0, 1000)
c.read(1, s.update(1, { deletes: [[9, many(2000, k => [k, k % 2])]] }), 0, 999)

// ---- texts

const broken = ['80', 'bf', 'c0 80', 'c1 bf', 'c2', 'c2 41', 'df c0', 'e0 80 80', 'e0 9f bf', 'e0 a0', 'e2 82', 'e2 28 a1', 'ed a0 80', 'ed bf bf', 'f0 80 80 80', 'f0 8f bf bf',
  'f0 9f 98', 'f0 9f 98 41', 'f4 90 80 80', 'f5 80 80 80', 'f8 88 80 80 80', 'fe', 'ff', 'ef bf', 'ed a0 bd ed b8 80', '61 80', 'c3 a9 a9']
const whole = ['', '61', 'c2 80', 'df bf', 'e0 a0 80', 'ed 9f bf', 'ee 80 80', 'ef bf bf', 'ef bb bf', 'f0 90 80 80', 'f4 8f bf bf', '61 f0 9f 98 80', 'f0 9f 98 80 f0 9f 98 80']
for (const b of [...broken, ...whole]) {
  const t = s.sized(bytes(b))
  // As name, as key and as content; in form 2 the text column is opened before all else.
  c.read(1, [1, 1, 5, 0, 0x24, 1, ...t, 1, 0x6b, 1, 0x61, 0])
  c.read(1, [1, 1, 5, 0, 0x24, 1, 1, 0x74, ...t, 1, 0x61, 0])
  c.read(1, [1, 2, 5, 0, 0x24, 1, 1, 0x74, 1, 0x6b, ...t, 0x81, 5, 0, 1, 0])
  c.content(1, 0, [1, 1, 5, 0, 0x24, 1, 1, 0x74, 1, 0x6b, ...t, 0])
  c.read(2, s.two({ text: [...t, 1] }))
  c.read(2, s.two({ client: [5, 5], info: [0x84, 0, 0], left: [0], text: [...t, 2], length: [1], rest: [1, 2, 0, 0] }))
}
// Form 2: name, key and content share the text; unit lengths that fit, run past it, end in a pair, and end.
const named = (text, units, rest = [1, 1, 0, 0]) => s.two({ client: [5], info: [0x24], parent: [1], text: [...s.sized(s.utf8(text)), ...units], rest })
const unitLists = [[1, 1, 1], [1, 1, 2], [2, 1, 1], [1, 2, 1], [0, 0, 4], [0, 0, 0], [4, 0, 0], [0, 2, 2], [1, 2, 2], [1, 1], [1], [],
  [5, 0, 0], [0, 5, 0], [0, 0, 5], [3, 1, 0], [2, 2, 0], [1, 3, 0],
  [0, 0, CLOCK], [0, 0, CLOCK + 1n], [0, 0, SAFE], [0, 0, SAFE + 1n], [SAFE, 0, 0], [0, SAFE, 0]]
for (const text of ['abcd', 'a😀b', '😀😀', '', 'é€']) for (const units of unitLists) c.read(2, named(text, s.numbers(units)))
for (const units of ['41', '41 01', '41 00', '41 00 02', '80', '41 80', '01 41 00', '40 fd ff ff ff 07', '40 fe ff ff ff 07', '80 80 80 80 80 80 80 80 80 00']) c.read(2, named('abc', bytes(units)))
// A text that ends before the second block, whose info has a text too.
c.read(2, s.two({ client: [0x45, 2], left: [1, 0], info: [0x84], text: [3, ...s.utf8('abc'), 1, 2], rest: [1, 2, 0, 0] }))
c.read(2, s.two({ client: [0x45, 2], left: [1, 0], info: [0x84], text: [3, ...s.utf8('abc'), 1, 3], rest: [1, 2, 0, 0] }), 0, 0)
c.read(2, s.two({ client: [0x45, 2], left: [1, 0], info: [0x84], text: [3, ...s.utf8('abc'), 1, 3], rest: [1, 2, 0, 0] }), 1, 0)

// ---- form 2: each column's length about what there is; its runs refused in each way; a column that is not needed

{
  const good = {
    key: [], client: [5, 0x49, 0], left: [0], right: [2], info: [0xc1, 0, 4], text: s.texts(['t', 'hi']), parent: [1], type: [], length: [1], rest: [1, 2, 0, 1, 5, 1, 0, 0]
  }
  c.read(2, s.two(good))
  const columns = model.COLUMNS
  const runs = ['', '80', 'ff', '45', '45 80', '45 fd ff ff ff 07', '45 fe ff ff ff 07', '45 ff ff ff ff 07', '45 80 80 80 80 80 80 80 80 80 00',
    '80 80 80 80 80 80 80 80 80', '80 80 80 80 80 80 80 20', 'c0 80 80 80 80 80 80 20', 'c0 80 80 80 80 80 80 20 00', 'bf ff ff ff ff ff ff 1f', '81 80 80 80 10',
    '80 80 80 80 10', 'bf ff ff ff 0f', 'bf ff ff ff 0f 00', 'c0 80 80 80 10', 'c1 80 80 80 10', '44', '03', '03 00', '00', '01', '40', '40 00']
  for (const name of columns) {
    for (const run of runs) c.read(2, s.two({ ...good, [name]: bytes(run) }))
    for (const size of [0n, 1n, 2n, 5n, 60n, 127n, 128n, p(31), p(53), p(63) - 1n]) {
      const at = columns.indexOf(name)
      c.read(2, [0, ...columns.flatMap((x, k) => k === at ? [...s.u(size), ...good[x]] : s.sized(good[x])), ...good.rest])
    }
    const at = columns.indexOf(name)
    for (const size of [9, 10]) c.read(2, [0, ...columns.flatMap((x, k) => k === at ? [...s.padded(s.u(good[x].length), size), ...good[x]] : s.sized(good[x])), ...good.rest])
    // Bytes left over in a column.
    c.read(2, s.two({ ...good, [name]: [...good[name], 0xff] }))
    if (name === 'client' || name === 'left' || name === 'length') c.read(2, s.two({ ...good, [name]: [...good[name], 7, 7] }))
  }
  for (let flag = 0; flag < 256; flag += 15) c.read(2, s.two({ ...good, flag }))
  for (let parent = 0; parent < 256; parent += 17) c.read(2, s.two({ client: [5, 9], info: [1], left: [6], parent: [parent], text: s.texts(['t']), length: [1], rest: [1, 1, 0, 0] }))
}

// ---- binaries: a length over what there is, in both forms

for (const size of [0n, 1n, 2n, 3n, 4n, 127n, 128n, p(31), p(53), p(62), p(63) - 1n]) {
  c.read(1, [1, 1, 5, 0, 0x83, 5, 0, ...s.u(size), 1, 2, 0])
  c.content(1, 0, [1, 1, 5, 0, 0x83, 5, 0, ...s.u(size), 1, 2, 0])
  c.read(2, s.two({ client: [0x45, 0], left: [0], info: [0x83], rest: [1, 1, 0, ...s.u(size), 1, 2, 0] }))
  c.content(2, 0, s.two({ client: [0x45, 0], left: [0], info: [0x83], rest: [1, 1, 0, ...s.u(size), 1, 2, 0] }))
}

// ---- every prefix, and damage: each byte changed, left out, and one put in before it

const short = [
  { form: 1, update: bytes(C) },
  { form: 2, update: bytes(D) },
  { form: 2, update: bytes(ids) },
  { form: 1, update: bytes('01 03 05 00 83 05 00 02 ff fe 0a 03 00 04 01 05 02 00 01 03 02') },
  ...forms.map(form => ({
    form,
    update: s.update(form, {
      sections: [section(9, 2, { info: 0x24, name: 't', key: 'k', text: 'é😀' }, { info: 0xc4, left: [9, 2], right: [5, 1], text: 'x' }), section(5, 0, gone(2), skip(3), gc(4))],
      deletes: [[9, [[2, 1], [5, 2]]], [5, [[0, 2]]]]
    })
  })),
  ...forms.map(form => ({ form, update: s.update(form, { sections: [section(300, 200, { info: 0x23, parent: [70000, 150], key: 'é', binary: [1, 2, 3] })], deletes: [[300, [[200, 1]]]] }) }))
]
// Short ones by Yjs too, one with each of these.
for (const form of forms) {
  const fits = made.filter(m => m.form === form && m.update.length >= 24 && m.update.length <= (form === 1 ? 40 : 56) && c.whole(m.form, m.update).number === 0)
  const found = ['skip', 'gc', 'parent id', 'key', 'right id', 'several clients'].map(what => fits.find(m => features[what](c.whole(m.form, m.update), m.update)))
  short.push(...new Set(found.filter(m => m !== undefined)))
}
short.forEach(({ form, update }, j) => {
  for (let n = 0; n < update.length; n++) {
    c.read(form, update.slice(0, n))
    if (j < 4) c.content(form, 0, update.slice(0, n))
    if (j < 4) c.list([form, ...update.slice(0, n)])
  }
  update.forEach((b, k) => {
    for (const x of new Set([0, 1, 10, b ^ 1, b ^ 64, b ^ 128, 128, 255, random(256)])) if (x !== b) c.read(form, replaced(update, k, x))
    if (j < 6) for (const x of [b ^ 1, b ^ 64, 255]) c.content(form, random(3), replaced(update, k, x))
    if (j < 6) c.list([form, ...replaced(update, k, random(256))])
    c.read(form, replaced(update, k))
    for (const x of [0, 128, random(256)]) c.read(form, replaced(update, k, x, b))
  })
  c.read(form, [...update, 0])
})
// The updates by Yjs and by hand: one or two bytes changed anywhere, an end anywhere, the other form.
;[...made, ...shapes].forEach(({ form, update }, k) => {
  if (update.length > 600) return
  if (k % 2 === 0) c.read(form, damaged(update))
  if (k % 4 === 1) c.read(form, damaged(damaged(update)), random(12), random(12))
  if (k % 4 === 3) c.read(form, update.slice(0, random(update.length)))
  if (k % 8 === 5) c.content(form, random(6), damaged(update))
  if (k % 16 === 7) c.read(3 - form, update)
  if (k % 16 === 8) c.list([form, ...damaged(update)])
})
const bySize = [...made].sort((a, b) => a.update.length - b.update.length)
for (const { form, update } of bySize.filter((_, k) => k % Math.floor(bySize.length / 24) === 0).slice(0, 22)) {
  for (let n = 0; n < Math.min(update.length, 120); n++) c.read(form, update.slice(0, n))
}
// Bytes that are no update at all.
for (let k = 0; k < 300; k++) {
  const noise = many(random(40), () => random(3) === 0 ? random(256) : random(8))
  c.read(1, noise)
  c.read(2, k % 2 === 0 ? noise : s.two({
    client: many(3, () => random(256)),
    left: [random(64)],
    right: [random(64)],
    info: many(3, () => pick([0, 1, 3, 4, 10, 129, 132, 65, 36])),
    parent: [random(2)],
    text: [2, 0x61, 0x62, 1, 1],
    length: [random(256), random(3)],
    rest: noise
  }))
}

// ---- other forms, and state vectors

for (const form of [0, 3, 4, 127, 128, 254, 255]) {
  c.read(form, bytes(C))
  c.content(form, 0, bytes(C))
  c.list([form, ...bytes(C)])
}
const entries = (n, count = n) => [...s.u(count), ...many(n, k => [...s.u(k * 7), ...s.u(k * k)]).flat()]
for (const n of [0, 1, 2, 63, 64]) {
  c.readVector(entries(n))
  c.readVector([...entries(n), 9, 9])
  c.readVector(entries(n, n + 1))
  c.readVector(entries(n).slice(0, -1))
}
for (const count of [65, 66, 127, 128, 2 ** 31, p(53), p(63) - 1n]) c.readVector(entries(66, count))
for (const x of [...clients, ...clocks]) {
  c.readVector([1, ...s.u(x), 3])
  c.readVector([1, 3, ...s.u(x)])
  c.readVector([2, ...s.u(x), 3, ...s.u(x), 4])
  c.readVector([2, 3, ...s.u(x), 4, ...s.u(x)])
  c.readVector([1, ...s.padded(s.u(x), 9), ...s.padded([3], 9)])
  c.readVector([1, ...s.padded([3], 10), 1])
  c.readVector([1, 3, ...s.padded(s.u(x), 10)])
}
// The client again, anywhere; the same clock again is nothing.
for (let k = 1; k < 64; k += 9) c.readVector([64, ...many(64, j => [j === 63 ? k : j, 5]).flat()])
c.readVector([3, 9, 1, 5, 1, 9, 2])
c.readVector([2, 5, ...s.u(p(31)), 5, 1])
{
  const v = [3, 5, 1, ...s.u(300), ...s.u(70000), ...s.u(p(53) - 1n), ...s.u(p(31) - 1n)]
  for (let n = 0; n < v.length; n++) c.readVector(v.slice(0, n))
  v.forEach((b, k) => {
    for (const x of new Set([0, 1, b ^ 1, b ^ 64, b ^ 128, 255, random(256)])) if (x !== b) c.readVector(replaced(v, k, x))
  })
  for (let k = 0; k < 150; k++) c.readVector(many(1 + random(16), () => random(4) === 0 ? random(256) : random(6)))
}

// ---- the largest

// A text of all sizes of characters and a binary, some 50,000 bytes together; once each is enough.
for (const form of forms) {
  const text = many(14000, k => letters[(k * 7 + form) % letters.length]).join('')
  const update = s.update(form, { sections: [section(9, 1, { info: 4, name: 'wide', text }, { info: 131, left: [9, 1], binary: many(12000, k => (k * 31) % 256) })] })
  if (update.length > 60000) throw new Error(`${update.length} bytes`)
  c.read(form, update)
  c.content(form, form - 1, update)
  c.read(form, update.slice(0, -1))
}
// The listing takes 65,536 bytes together, and no more, before it looks at the form.
w(c.list([1, 0, 0, ...Array(65533).fill(255)]), prints('update form 1 blocks 0 ranges 0\nend\n'))
w(c.list([9, 0, 0, ...Array(65534).fill(255)]), prints('refused 3 at 0\n'))

fs.writeFileSync(path.join(folder, 'updates.stdin'), c.stream())
fs.writeFileSync(path.join(folder, 'updates.stdout'), c.output())
console.log(`${c.told()}\nYjs's fixtures, with blocks: ${fixtureBlocks.join(', ')}\nmade by Yjs: ${made.length}, of which read ${readable.length}, form 1 + form 2 with ${has.join(', ')}`)
