// Places of refusals worked by hand, by document 02 (W-201) and the readings of it in docs/DECISIONS.md: each kind of place in both forms, in numbers and
// columns by themselves, and what lies nowhere.
'use strict'
const model = require('./update-model.cjs')
const numbers = require('./cases.cjs')
const updates = require('./update-cases.cjs')
const diffs = require('./diff-cases.cjs')
const sorts = require('./sort-cases.cjs')
const { bytes, hex, first, worked: w } = require('./stream.cjs')

const p = k => 2n ** BigInt(k)
const MORE = '80 80 80 80 80 80 80 80 80' // nine bytes that all say more
const [OVER53, OVER31, MOST31] = ['80 80 80 80 80 80 80 10', '80 80 80 80 08', 'ff ff ff ff 07']
const COUNT = 'fe ff ff ff 07' // a run count over its limit
const [LONG, FAR] = ['80 80 80 80 80 80 80 20', '80 80 80 80 10'] // 2^53 and 2^31, signed

// A bar stands before the byte that the refusal lies at; `why` says number and place. A bar at the end is an end.
const marked = (why, text) => {
  const [before, behind] = text.split('|').map(bytes)
  w(why.split('@')[1], `${before.length}`)
  return [...before, ...behind]
}
const prints = text => `0 ${hex(Buffer.from(text))} zero`
// The same refusal in every call that reads the update; the vector of the diff and of the sort is refused too, but later. Where rows are given it is theirs.
const refused = (form, why, text, ...rows) => {
  const update = marked(why, text)
  w(updates.read(form, update, ...rows), `${why} zero`)
  const lent = rows.length === 0 ? {} : { blockRows: rows[0], rangeRows: rows[1] }
  w(diffs.diff(form, 3 - form, update, [2, 5, 0, 5], { ...lent, room: 0 }), `${why} zero`)
  w(sorts.sort(form, update, [2, 5, 0, 5], { ...lent, orderRows: 0 }), `${why} zero`)
  if (rows.length > 0) return
  w(updates.content(form, 9, update), why)
  w(updates.list([form, ...update]), prints(`refused ${why.replace('@', ' at ')}\n`))
}
const one = (...of) => refused(1, ...of)
const two = (...of) => refused(2, ...of)

const form1 = () => {
  // 1: the update's end, whatever is missing: all, part of a number, an id, its clock, bytes of a text and of a binary, a Skip's length, a range count, a
  // range's length.
  one('1@0', '|')
  one('1@2', '01 80|')
  one('1@5', '01 01 05 00 82|')
  one('1@6', '01 01 05 00 c4 09|')
  one('1@9', '01 01 05 00 84 09 00 02 61|')
  one('1@10', '01 01 05 00 83 09 00 03 ff ff|')
  one('1@5', '01 01 05 00 0a|')
  one('1@3', '00 01 05|')
  one('1@5', '00 01 05 01 00|')
  // 2 and 3: the first byte of the number.
  one('2@0', `|${MORE} 00`)
  one('2@6', `01 01 05 00 81 09 |${MORE} 01 00`)
  one('3@0', '|41 00 00')
  one('3@1', '01 |80 80 04 05 00 00')
  one('3@2', `01 01 |${OVER53} 00 00 01 00`)
  one('3@3', `01 01 05 |${OVER31} 00 01 00`)
  one('3@8', `01 01 05 00 c1 09 00 07 |${OVER31} 01 00`)
  one('3@5', `01 01 05 00 01 |${OVER31} 09 00 01 00`)
  one('3@5', `01 01 05 00 0a |${OVER31} 00`)
  one('3@4', `00 01 05 01 |${OVER31} 01`)
  one('3@5', `00 01 05 01 00 |${OVER31}`)
  // 65,534 blocks after 2: the second block count.
  one('3@8', '02 02 05 00 00 01 00 01 |fe ff 03 06 00 00')
  // 4: the section's client, also spelt longer, though the first clock behind it is over its limit.
  one('4@5', '02 00 05 00 00 |05 00 00')
  one('4@5', `02 00 05 00 00 |85 00 ${OVER31} 00`)
  // 5: the info byte, though what comes before the content has been read: an id, two, a name and a key. The second block's.
  one('5@4', '01 01 05 00 |82 09 00 00')
  one('5@4', '01 01 05 00 |c5 09 00 07 00 00')
  one('5@4', '01 01 05 00 |32 01 01 74 01 6b 00')
  one('5@6', '01 02 05 00 00 01 |80 05 00 03 00')
  // 6: the first byte of the text: not of its length, and not the byte that is wrong. A name, a key, a text whose length has two bytes.
  one('6@7', '01 01 05 00 04 01 01 |ff 01 61 00')
  one('6@9', '01 01 05 00 24 01 01 74 02 |61 ff 01 62 00')
  one('6@9', '01 01 05 00 84 09 00 82 00 |61 80 00')
  one('6@9', '01 01 05 00 04 01 01 74 02 |ff 61 00')
  // 8 for a block: its info byte. A GC has the row, an item of length 0 takes none, the Skip has none left.
  one('8@4', '01 01 05 00 |04 01 01 74 02 68 69 00', 0, 0)
  one('8@11', '01 03 05 00 00 01 01 01 01 74 00 |0a 02 00', 1, 0)
  // An end over the limit: the info byte, of each kind; it beats the row. The second block's.
  for (const block of ['00 01', '0a 01', '81 09 00 01', '83 09 00 00', '84 09 00 01 61']) one('3@8', `01 01 05 ${MOST31} |${block} 00`)
  one('3@10', '01 02 05 fe ff ff ff 07 00 01 |83 09 00 00 00')
  one('3@10', '01 02 05 fe ff ff ff 07 00 01 |83 09 00 00 00', 1, 0)
  // 8 for a range and a range's end: the first byte of its clock. An empty range takes no row.
  one('8@6', '00 01 05 02 00 01 |01 01', 0, 1)
  one('8@8', '00 01 05 03 03 00 00 01 |04 01', 0, 1)
  one('8@4', '00 01 05 01 |83 00 01', 0, 0)
  one('3@4', `00 01 05 01 |${MOST31} 01`)
  one('3@6', `00 01 05 02 00 01 |01 ${MOST31}`)
  one('3@4', `00 01 05 01 |81 00 ${MOST31}`, 0, 0)
}

const form2 = () => {
  // Flag, then key, client, left, right, info, text, parent info, type, length, then the rest. Before all are cut there is no column: the update's end, or
  // the length's first byte. The text is not looked at before.
  two('1@0', '|')
  two('1@1', '00|')
  two('1@2', '00 80|')
  two('1@4', '00 00 02 05|')
  two('1@5', '00 00 02 05 09|')
  two('1@9', '00 00 00 00 00 00 05 03 74|')
  two('1@11', '00 00 00 00 00 00 02 01 ff 00 00|')
  two('2@1', `00 |${MORE} 00`)
  two('2@7', `00 00 01 05 00 00 00 |${MORE}`)
  // The text is opened: the column's end, its own length's first byte, the text's first byte. 65 sections are announced behind it.
  two('1@7', '00 00 00 00 00 00 00| 00 00 00 41')
  two('1@8', '00 00 00 00 00 00 01 80| 00 00 00 41')
  two('1@9', '00 00 00 00 00 00 02 02 61| 00 00 00 41')
  two('2@7', `00 00 00 00 00 00 0a |${MORE} 00 00 00 00 41`)
  two('6@8', '00 00 00 00 00 00 03 02 |61 ff 00 00 00 41')
  two('6@9', '00 00 00 00 00 00 04 81 00 |ff 01 00 00 00 41')
  // Numbers in the rest: their own first byte, the update's end.
  two('1@11', '00 00 00 00 00 00 01 00 00 00 00|')
  two('3@11', '00 00 00 00 00 00 01 00 00 00 00 |41')
  two('2@11', `00 00 00 00 00 00 01 00 00 00 00 |${MORE}`)
  two('3@12', '00 00 00 00 00 00 01 00 00 00 00 01 |80 80 04')
  two('3@14', `00 00 01 05 00 00 00 01 00 00 00 00 01 00 |${OVER31} 00`)
  two('3@16', `00 00 01 05 00 00 01 0a 01 00 00 00 00 01 01 00 |${OVER31} 00`)
  two('2@18', `00 00 02 45 00 01 00 00 01 83 01 00 00 00 00 01 01 00 |${MORE}`)
  two('1@20', '00 00 02 45 00 01 00 00 01 83 01 00 00 00 00 01 01 00 03 ff|')
  two('3@12', '00 00 00 00 00 00 01 00 00 00 00 00 |41')
  two('3@13', `00 00 00 00 00 00 01 00 00 00 00 00 01 |${OVER53}`)
  two('2@14', `00 00 00 00 00 00 01 00 00 00 00 00 01 05 |${MORE}`)
  // The client column, of a section and of an id: its end; a number without an end; a count's end, its own first byte; the value's run.
  two('1@3', '00 00 00| 00 00 00 01 00 00 00 00 01 00 00 00')
  two('1@4', '00 00 01 05| 00 00 01 81 01 00 00 00 01 01 01 01 00 00')
  two('1@5', '00 00 02 05 80| 00 00 01 81 01 00 00 00 01 01 01 01 00 00')
  two('1@5', '00 00 02 05 49| 00 00 01 81 01 00 00 00 01 01 01 01 00 00')
  two('2@4', `00 00 0a 05 |${MORE} 00 00 01 81 01 00 00 00 01 01 01 01 00 00`)
  two('2@5', `00 00 0b 05 49 |${MORE} 00 00 01 81 01 00 00 00 01 01 01 01 00 00`)
  two('3@5', `00 00 07 05 49 |${COUNT} 00 00 01 81 01 00 00 00 01 01 01 01 00 00`)
  two('3@4', `00 00 09 05 |${LONG} 00 00 01 81 01 00 00 00 01 01 01 01 00 00`)
  two('3@3', '00 00 09 |c0 80 80 80 80 80 80 20 00 00 00 00 01 00 00 00 00 01 00 00 00')
  // 4: the first byte of the run that the section's client comes from: twice from one run, from two, from the second run's second value.
  two('4@3', '00 00 02 |45 00 00 00 00 01 00 00 00 00 02 00 00 00 00 00')
  two('4@4', '00 00 02 05 |05 00 00 00 01 00 00 00 00 02 00 00 00 00 00')
  two('4@4', '00 00 03 09 |45 00 00 00 00 01 00 00 00 00 03 00 00 00 00 00 00 00')
  // Left clocks (a parent id's too) and right clocks, e = -4: no clock. e of 2^31; a count that is missing and one over its limit.
  two('3@6', '00 00 02 05 09 01 |44 00 01 81 01 00 00 00 01 01 01 01 00 00')
  two('3@7', '00 00 02 05 09 00 01 |44 01 41 01 00 00 00 01 01 01 01 00 00')
  two('3@6', '00 00 02 05 09 01 |44 00 01 01 01 00 01 00 00 01 01 01 01 00 00')
  two('3@6', `00 00 02 05 09 05 |${FAR} 00 01 81 01 00 00 00 01 01 01 01 00 00`)
  two('1@7', '00 00 02 05 09 01 03| 00 01 81 01 00 00 00 01 01 01 01 00 00')
  two('3@8', `00 00 02 05 09 00 06 03 |${COUNT} 01 41 01 00 00 00 01 01 01 01 00 00`)
  // A run leads to no clock with its third value: 1, then 0 and -1 by differences of -1; 2^30 - 1 three times. The column's second run, and its first.
  two('3@7', '00 00 02 45 02 03 02 |41 01 00 01 81 01 00 00 00 02 40 01 01 03 00 00')
  two('3@6', '00 00 02 45 02 06 |bf ff ff ff 0f 01 00 01 81 01 00 00 00 02 40 01 01 03 00 00')
  // The info column: its end, a count. 5 and 8 and an end lie at the first byte of its run: of a value without end, and of the second value with a count.
  two('1@7', '00 00 01 05 00 00 00| 01 00 00 00 01 01 01 01 00 00')
  two('1@9', '00 00 01 05 00 00 02 00 00| 01 00 00 00 02 41 00 01 02 00 00')
  two('2@8', `00 00 01 05 00 00 0a 00 |${MORE} 01 00 00 00 01 01 01 01 00 00`)
  two('3@8', `00 00 01 05 00 00 06 00 |${COUNT} 01 00 00 00 01 01 01 01 00 00`)
  two('5@9', '00 00 02 45 00 01 00 00 01 |82 01 00 00 00 00 01 01 00 00')
  two('5@11', '00 00 02 45 00 01 00 00 03 00 00 |82 01 00 00 00 01 01 01 02 00 00')
  two('8@7', '00 00 01 05 00 00 01 |00 01 00 00 00 02 41 01 01 03 00 00', 2, 0)
  two('8@9', '00 00 01 05 00 00 04 0a 00 |00 01 01 00 00 00 02 41 00 01 03 00 02 00', 2, 0)
  two('3@7', '00 00 01 05 00 00 01 |00 01 00 00 00 02 41 01 01 03 fd ff ff ff 07 00')
  two('3@7', '00 00 01 05 00 00 01 |00 01 00 00 00 02 41 01 01 03 fd ff ff ff 07 00', 2, 0)
  two('3@9', '00 00 01 05 00 00 04 0a 00 |00 01 01 00 00 00 02 41 00 01 03 fc ff ff ff 07 02 00')
  two('3@7', '00 00 01 05 00 00 01 |04 06 03 74 68 69 01 02 01 01 00 00 01 01 fe ff ff ff 07 00')
  // Parent info: the column's end, a count.
  two('1@11', '00 00 01 05 00 00 01 01 01 00 00| 00 01 01 01 01 00 00')
  two('1@13', '00 00 01 05 00 00 01 01 01 00 02 01 80| 00 01 01 01 01 00 00')
  two('2@12', `00 00 01 05 00 00 01 01 01 00 0a 01 |${MORE} 00 01 01 01 01 00 00`)
  two('3@12', `00 00 01 05 00 00 01 01 01 00 06 01 |${COUNT} 00 01 01 01 01 00 00`)
  // The length column: its end, at once and after a value; a count; a length of 2^31, alone, behind another and as a run; 2^53.
  two('1@13', '00 00 01 05 00 00 01 00 01 00 00 00 00| 01 01 00 00')
  two('1@14', '00 00 01 05 00 00 01 00 01 00 00 00 01 01| 01 02 00 00')
  two('1@14', '00 00 01 05 00 00 01 00 01 00 00 00 01 41| 01 01 00 00')
  two('2@14', `00 00 01 05 00 00 01 00 01 00 00 00 0a 41 |${MORE} 01 01 00 00`)
  two('3@14', `00 00 01 05 00 00 01 00 01 00 00 00 06 41 |${COUNT} 01 01 00 00`)
  two('3@13', `00 00 01 05 00 00 01 00 01 00 00 00 05 |${FAR} 01 01 00 00`)
  two('3@14', `00 00 01 05 00 00 01 00 01 00 00 00 06 01 |${FAR} 01 02 00 00`)
  two('3@14', '00 00 01 05 00 00 01 00 01 00 00 00 07 01 |c0 80 80 80 10 00 01 03 00 00')
  two('3@13', `00 00 01 05 00 00 01 00 01 00 00 00 08 |${LONG} 01 01 00 00`)
  // Unit lengths are a number column inside the text column: the text column's end, a count, a value. The name has taken the first.
  two('1@14', '00 00 01 05 00 00 01 04 05 03 74 68 69 01| 01 01 00 00 01 01 00 00')
  two('1@15', '00 00 01 05 00 00 01 04 06 03 74 68 69 01 80| 01 01 00 00 01 01 00 00')
  two('1@15', '00 00 01 05 00 00 01 04 06 03 74 68 69 01 41| 01 01 00 00 01 01 00 00')
  two('2@14', `00 00 01 05 00 00 01 04 0e 03 74 68 69 01 |${MORE} 01 01 00 00 01 01 00 00`)
  two('3@15', `00 00 01 05 00 00 01 04 0b 03 74 68 69 01 41 |${COUNT} 01 01 00 00 01 01 00 00`)
  two('3@14', `00 00 01 05 00 00 01 04 0d 03 74 68 69 01 |${LONG} 01 01 00 00 01 01 00 00`)
  // 7: where the text begins: "hi" of three units; a pair of one; a key of two, where one is left; none left, at once, and with the fourth value of a run.
  two('7@11', '00 00 01 05 00 00 01 04 06 03 74 |68 69 01 03 01 01 00 00 01 01 00 00')
  two('7@11', '00 00 01 05 00 00 01 04 08 05 74 |f0 9f 98 80 41 00 01 01 00 00 01 01 00 00')
  two('7@11', '00 00 01 05 00 00 01 24 05 02 74 |6b 01 02 01 01 00 00 01 01 00 00')
  two('7@11', '00 00 01 05 00 00 01 04 04 01 74 |01 01 01 01 00 00 01 01 00 00')
  two('7@10', '00 00 01 05 00 00 01 04 02 00 |01 01 01 00 00 01 01 00 00')
  two('7@16', '00 00 02 45 03 02 01 03 00 01 84 06 03 61 62 63 |41 03 00 00 00 01 04 00 00')
  // Ranges: clock and length, as restored, at their own first byte; an end over the limit and 8 at the clock's.
  two('1@16', '00 00 00 00 00 00 01 00 00 00 00 00 01 05 01 00|')
  two('2@15', `00 00 00 00 00 00 01 00 00 00 00 00 01 05 01 |${MORE} 00`)
  two('3@15', `00 00 00 00 00 00 01 00 00 00 00 00 01 05 01 |${OVER31} 00`)
  two('3@21', '00 00 00 00 00 00 01 00 00 00 00 00 01 05 02 fe ff ff ff 07 00 |01 00')
  two('3@16', `00 00 00 00 00 00 01 00 00 00 00 00 01 05 01 00 |${MOST31}`)
  two('3@21', '00 00 00 00 00 00 01 00 00 00 00 00 01 05 02 fe ff ff ff 07 00 |00 00')
  two('3@21', '00 00 00 00 00 00 01 00 00 00 00 00 01 05 02 fe ff ff ff 07 00 |00 00', 0, 1)
  two('8@17', '00 00 00 00 00 00 01 00 00 00 00 00 01 05 02 03 00 |00 01', 0, 1)
}

// Numbers and columns by themselves: places count in the bytes handed over, also where a number is read behind their end.
const alone = () => {
  const read = (call, why, text, at) => w(call(marked(why, text), at), why)
  for (const call of [numbers.readUnsigned, numbers.readSigned]) {
    read(call, '1@1', '05|', 1)
    read(call, '1@1', '05|', 9)
    read(call, '1@1', '05|', p(64) - 1n)
    read(call, '1@0', '|', 0)
    read(call, '1@3', '05 80 ff|', 1)
    read(call, '2@1', `05 |${MORE} 00`, 1)
  }
  // Each with how many values there are before it.
  const column = (call, why, text, ...values) => w(call(marked(why, text), values.length + 1), [why, ...values].join(' '))
  const number = (...of) => column(numbers.readNumbers, ...of)
  number('1@0', '|')
  number('1@2', '05 46|', 5)
  number('1@2', '45 00|', 5, 5)
  number('1@2', '05 80|', 5)
  number('2@1', `05 |${MORE}`, 5)
  number('2@2', `05 46 |${MORE}`, 5)
  number('3@2', `05 46 |${COUNT}`, 5)
  number('3@1', `05 |${LONG}`, 5)
  number('3@1', '05 |c0 80 80 80 80 80 80 20 00', 5)
  const difference = (...of) => column(numbers.readDifferences, ...of)
  difference('1@0', '|')
  difference('1@2', '0a 41|', 5)
  difference('2@1', `0a |${MORE}`, 5)
  difference('2@2', `0a 41 |${MORE}`, 5)
  difference('3@2', `0a 41 |${COUNT}`, 5)
  difference('3@1', `0a |${FAR}`, 5)
  difference('3@1', '0a |4c', 5)
  difference('3@1', '0a |43 03', 5, 3, 1)
  difference('3@0', '|bf ff ff ff 0f 07', 1073741823, 2147483646)
  const byte = (...of) => column(numbers.readBytes, ...of)
  byte('1@0', '|')
  byte('1@2', '07 00|', 7)
  byte('1@2', '07 80|')
  byte('1@4', '07 00 09 80|', 7)
  byte('2@1', `07 |${MORE}`)
  byte('3@3', `07 00 09 |${COUNT}`, 7)
  const text = (...of) => column(numbers.readTexts, ...of)
  text('1@0', '|')
  text('1@1', '80|')
  text('1@3', '03 61 62|')
  text('2@0', `|${MORE} 61 01`)
  text('6@1', '02 |61 ff 01 01')
  text('6@2', '81 00 |ff 01')
  text('1@3', '02 68 69|')
  text('1@5', '02 68 69 01 80|', '68')
  text('1@5', '02 68 69 01 41|', '68')
  text('2@4', `02 68 69 01 |${MORE}`, '68')
  text('2@5', `02 68 69 01 41 |${MORE}`, '68')
  text('3@5', `02 68 69 01 41 |${COUNT}`, '68')
  text('3@4', `02 68 69 01 |${LONG}`, '68')
  text('7@2', '02 68 |69 01 02', '68')
  text('7@3', '02 68 69 |02 01', '6869')
  text('7@2', '05 61 |f0 9f 98 80 41 00', '61')
  text('7@1', '00 |01')
  text('7@4', '03 61 62 63 |41 05', '61', '62', '63')
}

// What lies nowhere: at 0, though there would be a byte to name.
const nowhere = () => {
  const C = bytes('01 01 05 00 04 01 01 74 04 f0 9f 98 80 00')
  // A vector's refusals, alone and in a diff and a sort.
  for (const [why, text] of [['1@0', '01 05'], ['2@0', `01 05 ${MORE}`], ['3@0', '41'], ['3@0', `01 ${OVER53} 00`], ['3@0', `01 05 ${OVER31}`],
    ['4@0', '02 05 01 05 02']]) {
    w(updates.readVector(bytes(text)), `${why} zero`)
    w(diffs.diff(1, 1, C, bytes(text)), `${why} zero`)
    w(sorts.sort(1, C, bytes(text)), `${why} zero`)
  }
  // 9, 10, 11, 12, 13, rows for the order; with a row for the block missing it has a place.
  w(diffs.diff(1, 1, C, [1, 5, 1]), '9@0 zero')
  w(diffs.diff(1, 1, C, [0], { room: 13 }), '10@0 zero')
  w(diffs.diff(1, 3, C, [0]), '12@0 zero')
  w(diffs.diff(1, 2, bytes('01 01 05 00 81 09 80 80 80 80 04 01 00'), [0]), '13@0 zero')
  w(updates.content(1, 1, C), '11@0')
  w(updates.content(3, 0, C), '12@0')
  w(updates.read(3, C), '12@0 zero')
  w(sorts.sort(3, C, [0]), '12@0 zero')
  w(sorts.sort(1, C, [0], { orderRows: 0 }), '8@0 zero')
  w(sorts.sort(1, C, [0], { blockRows: 0, orderRows: 0 }), '8@4 zero')
  // Writers.
  w(numbers.writeUnsigned(p(63), 9), '3@0 zero')
  w(numbers.writeSigned(true, 64, 1), '10@0 zero')
  w(numbers.writeNumbers([1, p(53)], 99), '3@0 zero')
  w(numbers.writeDifferences([1, p(31) - 1n], 99), '13@0 zero')
  w(numbers.writeBytes([1, 2], 2), '10@0 zero')
  w(numbers.writeTexts(bytes('61 ff'), [1], 99), '6@0 zero')
  w(numbers.writeTexts(bytes('61 62'), [1, 2], 99), '7@0 zero')
  // The listing's input: nothing, no form, too much; its places do not count the form byte.
  w(updates.list([]), prints('refused 1 at 0\n'))
  w(updates.list([3, 0, 41]), prints('refused 12 at 0\n'))
  w(updates.list([1, 0, 0x41]), prints('refused 3 at 1\n'))
  w(updates.list([1, 0, 0x41, ...Array(65533).fill(0)]), prints('refused 3 at 1\n'))
  w(updates.list([1, 0, 0x41, ...Array(65534).fill(0)]), prints('refused 3 at 0\n'))
  // An update over the length limit is no case of the stream: the model alone. One byte less is refused for its 65 delete-set clients.
  const long = Buffer.alloc(2 ** 24)
  long[1] = 0x41
  for (const form of [1, 2]) w(first(model.readUpdate(form, long)), '3@0')
  w(first(model.readUpdate(1, long.subarray(1))), '3@0')
  w(first(model.readUpdate(1, long.subarray(0, 2 ** 24 - 1))), '3@1')
}

module.exports = { MORE, COUNT, LONG, FAR, refused, all: () => [form1, form2, alone, nowhere].forEach(part => part()) }
