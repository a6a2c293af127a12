// Formats, types and any-lists worked by hand, by document 02 (W-202) and the readings of it in docs/DECISIONS.md, whose letters stand here (L, D, K, W): any-values,
// keys by number, types, what a diff writes of them, the order of its refusals, and where Yjs does otherwise.
'use strict'
const updates = require('./update-cases.cjs')
const diffs = require('./diff-cases.cjs')
const sorts = require('./sort-cases.cjs')
const yjs = require('./yjs.cjs')
const yjsDiffs = require('./yjs-diffs.cjs')
const s = require('./spelling.cjs')
const { section } = require('./shapes.cjs')
const { refused, MORE, COUNT, LONG, FAR } = require('./places-by-hand.cjs')
const { bytes, hex, unplaced, worked: w } = require('./stream.cjs')
const { many } = require('./random.cjs')

const { Y } = yjs
const times = (n, text) => many(n, () => text).join(' ')
const byte = n => n.toString(16).padStart(2, '0')
const prints = text => `0 ${hex(Buffer.from(text))} zero`
// Client 5, clock 0, name "t" and content 8: in form 1 the count stands at 8 and the values begin at 9, in form 2 they do at 16 and 20.
const ANY = '01 01 05 00 08 01 01 74'
const any1 = (count, text) => `${ANY} ${count} ${text} 00`
const any2 = (count, text) => `00 00 01 05 00 00 01 08 03 01 74 01 01 01 00 01 ${count} 01 01 00 ${text} 00`
const reads = (form, text, rows) => w(updates.read(form, bytes(text)), `0 blocks ${rows} ranges 0 zero`)
const one = (...of) => refused(1, ...of)
const two = (...of) => refused(2, ...of)
// An any-list that reads in both forms, strictly too.
const values = (count, text) => {
  const size = bytes(text).length
  const places = ['7+1.-.-.9', '10+1.-.-.20']
  ;[any1, any2].forEach((made, k) => {
    const update = bytes(made(byte(count), text))
    const line = `0 blocks 1 5.0.${count}.any.-.-.${places[k]}+${size}.-.- ranges 0 zero`
    w(updates.read(k + 1, update), line)
    w(updates.strict(k + 1, update), line)
  })
}
const diff = (form, written, update, vector, lent) => diffs.diff(form, written, bytes(update), bytes(vector), lent)
// What is written in form 1 and in form 2: the bytes, or the refusal.
const gives = (form, update, vector, ...out) => out.forEach((text, k) => {
  const [number, written] = diff(form, k + 1, update, vector).split(' ')
  w(number === '0' ? written : number, text.includes('@') ? text : hex(bytes(text)))
})
const NOTHING = ['00 00', '00 00 00 00 00 00 01 00 00 00 00 00 00']

// ---- a coloured remark in both forms: a format with key "bold" and value true

const BOLD = ['01 01 05 00 06 01 01 74 04 62 6f 6c 64 04 74 72 75 65 00',
  '00 01 00 01 05 00 00 01 06 08 05 74 62 6f 6c 64 01 04 01 01 00 00 01 01 00 78 00']
const remark = () => {
  reads(1, BOLD[0], '1 5.0.1.format.-.-.7+1.-.-.14+4.9+4.-')
  reads(2, BOLD[1], '1 5.0.1.format.-.-.11+1.-.-.25+1.12+4.-')
  BOLD.forEach((text, k) => {
    // Content is for binaries and texts (K8).
    w(updates.content(k + 1, 0, bytes(text)), '11@0')
    w(updates.list([k + 1, ...bytes(text)]), prints(`update form ${k + 1} blocks 1 ranges 0\n5 0 1 format\nend\n`))
    w(updates.strict(k + 1, bytes(text)).split(' ')[0], '0')
    w(sorts.sort(k + 1, bytes(text), [0]).split(' ;')[0], '0 0')
    gives(k + 1, text, '00', ...(k === 0 ? [text, '19@0'] : ['19@0', text]))
    gives(k + 1, text, '01 05 01', ...NOTHING)
  })
}

// ---- any-values

const anys = () => {
  // D1: a value of each tag, and all together.
  const each = ['7f', '7e', '79', '78', '7d 05', '7d c5 01', '7c 3f 80 00 00', '7b 3f f0 00 00 00 00 00 00', '7a ff ff ff ff ff ff ff fe', '77 02 c3 a9', '77 00', '74 02 ff 00', '74 00',
    '76 01 01 61 7e', '76 00', '75 02 7e 75 00', '75 00']
  each.forEach(text => values(1, text))
  values(each.length, each.join(' '))
  w(updates.content(1, 0, bytes(any1('01', '77 02 68 69'))), '11@0')
  w(updates.content(2, 0, bytes(any2('01', '77 02 68 69'))), '11@0')
  w(updates.list([1, ...bytes(any1('02', '7e 7e'))]), prints('update form 1 blocks 1 ranges 0\n5 0 2 any\nend\n'))
  // Any other tag is refused at the info byte (L1), when it is read: nothing follows it. In form 2 at its run.
  for (let tag = 0; tag < 256; tag++) {
    if (tag > 115 && tag < 128) continue
    w(updates.read(1, bytes(`${ANY} 01 ${byte(tag)}`)), '5@4 zero')
    w(updates.read(2, bytes(any2('01', byte(tag))).slice(0, -1)), '5@7 zero')
  }
  one('5@4', '01 01 05 00 |08 01 01 74 01 05 00')
  one('5@4', '01 01 05 00 |08 01 01 74 02 7e 05 00')
  two('5@7', '00 00 01 05 00 00 01 |08 03 01 74 01 01 01 00 01 02 01 01 00 7e 05 00')
  two('5@8', '00 01 00 01 05 00 00 01 |06 08 05 74 62 6f 6c 64 01 04 01 01 00 00 01 01 00 05 00')
  // D2 to D4: sixteen open at once, the innermost empty or not, arrays and objects alike, in each of several entries. The seventeenth is refused at its tag
  // (L2), before its count; an unknown tag inside sixteen is 5.
  values(1, `${times(16, '75 01')} 7e`)
  values(1, `${times(15, '75 01')} 75 00`)
  values(1, `${times(16, '76 01 00')} 78`)
  values(1, `${times(8, '75 01 76 01 00')} 7d 05`)
  values(3, `${times(16, '75 01')} 7e ${times(16, '75 01')} 7e ${times(15, '75 01')} 75 00`)
  values(1, `75 02 ${times(15, '75 01')} 7e ${times(15, '75 01')} 7e`)
  one('3@41', `${ANY} 01 ${times(16, '75 01')} |75 00 00`)
  one('3@41', `${ANY} 01 ${times(16, '75 01')} |75`)
  one('3@41', `${ANY} 01 ${times(16, '75 01')} |76`)
  one('3@72', `${ANY} 01 75 02 ${times(15, '75 01')} 7e ${times(15, '75 01')} |75 00 00`)
  one('5@4', `01 01 05 00 |08 01 01 74 01 ${times(16, '75 01')} 05`)
  two('3@60', `00 00 01 05 00 00 01 08 03 01 74 01 01 01 00 01 01 01 01 00 ${times(8, '75 01 76 01 00')} |75 00 00`)
  two('3@57', `00 01 00 01 05 00 00 01 06 08 05 74 62 6f 6c 64 01 04 01 01 00 00 01 01 00 ${times(16, '75 01')} |75 00 00`)
  // D5: nine bytes of an integer, minus zero, a longer spelling; ten bytes are refused at the first one (L6). So are counts and byte lengths.
  values(1, '7d bf ff ff ff ff ff ff ff 7f')
  values(1, '7d ff ff ff ff ff ff ff ff 7f')
  values(2, '7d 40 7d c0 80 00')
  one('2@10', `${ANY} 01 7d |${MORE} 00`)
  one('2@10', `${ANY} 01 75 |${MORE} 00`)
  one('2@10', `${ANY} 01 77 |${MORE} 00`)
  one('2@13', `${ANY} 01 76 01 00 74 |${MORE} 00`)
  two('2@21', `00 00 01 05 00 00 01 08 03 01 74 01 01 01 00 01 01 01 01 00 7d |${MORE} 00`)
  // D6: counts and byte lengths have no limit, and the bytes run out: at the update's end (L6), as every end inside values.
  one('1@16', `${ANY} 01 75 ff ff ff ff 0f 7e|`)
  one('1@21', `${ANY} 01 76 ff ff ff ff ff ff ff ff 7f 00 7e|`)
  one('1@20', `${ANY} 01 77 ff ff ff ff ff ff ff ff 7f 61|`)
  one('1@20', `${ANY} 01 74 ff ff ff ff ff ff ff ff 7f 61|`)
  for (const text of ['', '7d', '7d 80', '7c', '7c 00 00 00', '7b 00 00 00 00 00 00 00', '7a 00', '77', '77 02 61', '76', '76 01', '76 01 01', '76 01 00', '75', '75 01', '74', '74 01', '7e 7d']) {
    const count = text.startsWith('7e') ? '02' : '01'
    one(`1@${9 + bytes(text).length}`, `${ANY} ${count} ${text}|`)
    two(`1@${20 + bytes(text).length}`, `${any2(count, text).slice(0, -3)}|`)
  }
  // D7: strings and keys are UTF-8 (L5: their first byte, behind the length, once all of it is there), byte arrays are not. A key may stand twice.
  one('6@11', `${ANY} 01 77 01 |ff 00`)
  one('6@12', `${ANY} 01 76 01 01 |ff 7e 00`)
  one('6@12', `${ANY} 01 77 82 00 |61 80 00`)
  one('1@12', `${ANY} 01 77 02 ff|`)
  values(1, '74 01 ff')
  values(1, '76 02 01 61 7e 01 61 78')
  two('6@22', '00 00 01 05 00 00 01 08 03 01 74 01 01 01 00 01 01 01 01 00 77 02 |61 ff 00')
  // D8: the count is a clock length, in line and in the length column; its end is looked at when all values are there, and then its row.
  one('3@8', `${ANY} |80 80 80 80 08 00`)
  one('1@14', `${ANY} ff ff ff ff 07 7e|`)
  two('3@16', '00 00 01 05 00 00 01 08 03 01 74 01 01 01 00 05 |80 80 80 80 10 01 01 00 7e 00')
  two('1@16', '00 00 01 05 00 00 01 08 03 01 74 01 01 01 00 00| 01 01 00 7e 00')
  one('3@8', '01 01 05 fe ff ff ff 07 |08 01 01 74 02 7e 7e 00')
  one('1@15', '01 01 05 fe ff ff ff 07 08 01 01 74 02 7e 77|')
  one('8@4', '01 01 05 00 |08 01 01 74 01 7e', 0, 0)
  // D9: none is an item of length 0, and is dropped; the one behind it is number 0.
  w(updates.read(1, bytes(any1('00', '')), 0, 0), '0 blocks 0 ranges 0 zero')
  w(updates.read(2, bytes(any2('00', '')), 0, 0), '0 blocks 0 ranges 0 zero')
  reads(1, '01 02 05 00 08 01 01 74 00 88 05 00 01 7e 00', '1 5.0.1.any.5:0.-.-.-.-.13+1.-.-')
}

// ---- keys and formats

// Formats in form 2, all after the first with left id (5, 0): the key column's bytes, the texts behind the name "t", how many there are.
const formats = (key, texts, n) => s.two({
  key, client: n === 1 ? [5] : [0x45, ...s.u(n - 2)], left: n < 3 ? (n < 2 ? [] : [0]) : [1, ...s.u(n - 3)], info: [6, 0, 0x86], text: s.texts(['t', ...texts]), parent: [1],
  rest: [1, ...s.u(n), 0, ...many(n, () => 0x78), 0]
})
const marksOf = line => line.split(' ').flatMap(x => x.includes('.format.') ? [x.split('.')[10]] : [])
const keys = () => {
  // K1, K5: numbers 5 and 0. The first is none of an empty list, so it takes the next text, and that is 0: both marks are the "b" at 17.
  reads(2, '00 02 0a 4a 02 45 00 01 00 00 03 06 00 86 05 02 74 62 41 00 01 01 00 00 01 02 00 78 78 00',
    '2 5.0.1.format.-.-.16+1.-.-.27+1.17+1.- 5.1.1.format.5:0.-.-.-.-.28+1.17+1.-')
  // Numbers 0, 1, 0, 1, 2 with three texts; 0, 2, 1, where 2 takes the second text and 1 is that; far above, 2^30 - 1.
  // Marks as the place of their key's text behind the name, and its bytes.
  const found = (numbers, texts, ...wanted) => {
    const update = formats(s.differences(numbers), texts, numbers.length)
    const name = Number(updates.read(2, update).split(' ')[3].split('.')[6].split('+')[0])
    w(marksOf(updates.read(2, update)).join(' '), wanted.map(([at, size]) => `${name + 1 + at}+${size}`).join(' '))
  }
  found([0, 1, 0, 1, 2], ['a', 'bc', 'é'], [0, 1], [1, 2], [0, 1], [1, 2], [3, 2])
  found([0, 2, 1], ['a', 'bc'], [0, 1], [1, 2], [1, 2])
  found([2 ** 30 - 1, 0], ['a'], [0, 1], [0, 1])
  found([0, 1, 2, 0], ['a', 'a', 'a'], [0, 1], [1, 1], [2, 1], [0, 1])
  // The number is a clock: a difference to below zero, and one that is none; its run's end, its count. Then its text: units that end, and that run past it.
  two('3@2', '00 01 |42 01 05 00 00 01 06 08 05 74 62 6f 6c 64 01 04 01 01 00 00 01 01 00 78 00')
  two('3@2', `00 05 |${FAR} 01 05 00 00 01 06 08 05 74 62 6f 6c 64 01 04 01 01 00 00 01 01 00 78 00`)
  two('2@2', `00 09 |${MORE} 01 05 00 00 01 06 08 05 74 62 6f 6c 64 01 04 01 01 00 00 01 01 00 78 00`)
  two('1@2', '00 00| 01 05 00 00 01 06 08 05 74 62 6f 6c 64 01 04 01 01 00 00 01 01 00 78 00')
  two('1@3', '00 01 01| 01 05 00 00 01 06 08 05 74 62 6f 6c 64 01 04 01 01 00 00 01 01 00 78 00')
  two('3@3', `00 06 01 |${COUNT} 01 05 00 00 01 06 08 05 74 62 6f 6c 64 01 04 01 01 00 00 01 01 00 78 00`)
  two('1@17', '00 01 00 01 05 00 00 01 06 07 05 74 62 6f 6c 64 01| 01 01 00 00 01 01 00 78 00')
  two('7@12', '00 01 00 01 05 00 00 01 06 08 05 74 |62 6f 6c 64 01 05 01 01 00 00 01 01 00 78 00')
  // K3, K4: 256 entries, equal texts too; the 257th number is refused at its run (L3), before its text. A known number adds nothing.
  const [upTo, again] = [n => [0, 3, ...s.u(n - 2)], n => [1, ...s.u(n - 2)]]
  w(updates.read(2, formats(upTo(255), many(256, () => 'b'), 256)).split(' ').slice(0, 3).join(' '), '0 blocks 256')
  for (const texts of [256, 257]) refused(2, '3@3', `00 04 00 |03 fe 01 ${hex(formats(upTo(256), many(texts, () => 'b'), 257)).slice(12)}`)
  w(updates.read(2, formats(again(257), ['b'], 257)).split(' ').slice(0, 3).join(' '), '0 blocks 257')
  const more = last => formats(s.differences([...many(256, k => k), 0, last]), many(257, () => 'b'), 258)
  for (const [last, number] of [[0, '0'], [255, '0'], [256, '3'], [257, '3'], [2 ** 30 - 1, '3']]) w(unplaced(updates.read(2, more(last))).split(' ')[0], number)
  // K6: two texts in line; the value is UTF-8 and is not looked into. A key is UTF-8, too.
  reads(1, '01 01 05 00 06 01 01 74 01 62 01 7d 00', '1 5.0.1.format.-.-.7+1.-.-.11+1.9+1.-')
  reads(1, '01 01 05 00 06 01 01 74 00 00 00', '1 5.0.1.format.-.-.7+1.-.-.10+0.9+0.-')
  one('6@11', '01 01 05 00 06 01 01 74 01 62 01 |ff 00')
  one('6@9', '01 01 05 00 06 01 01 74 01 |ff 01 ff 00')
  one('1@11', '01 01 05 00 06 01 01 74 01 62 01|')
  one('1@10', '01 01 05 00 06 01 01 74 01 62|')
  one('1@8', '01 01 05 00 06 01 01 74|')
  one('2@8', `01 01 05 00 06 01 01 74 |${MORE} 00`)
  one('2@10', `01 01 05 00 06 01 01 74 01 62 |${MORE} 00`)
  one('3@8', '01 01 05 ff ff ff ff 07 |06 01 01 74 01 62 01 31 00')
  one('8@4', '01 01 05 00 |06 01 01 74 01 62 01 31', 0, 0)
  // An item's own key is a plain text (K2): name, key, then the format's key, which is number 0.
  reads(2, '00 01 00 01 05 00 00 01 26 06 03 74 6b 62 41 01 01 01 00 00 01 01 00 78 00', '1 5.0.1.format.-.-.11+1.-.12+1.23+1.13+1.-')
  reads(1, '01 01 05 00 26 01 01 74 01 6b 01 62 01 31 00', '1 5.0.1.format.-.-.7+1.-.9+1.13+1.11+1.-')
}

// ---- types

const types = () => {
  const type2 = (text, key = '00', texts = '03 01 74 01') => `00 ${key} 01 05 00 00 01 07 ${texts} 01 01 ${text} 00 01 01 00 00`
  for (const n of [0, 1, 2, 4, 6]) {
    reads(1, `01 01 05 00 07 01 01 74 ${byte(n)} 00`, `1 5.0.1.type.-.-.7+1.-.-.-.-.${n}`)
    reads(2, type2(`01 ${byte(n)}`), `1 5.0.1.type.-.-.10+1.-.-.-.-.${n}`)
  }
  for (const n of [3, 5]) {
    reads(1, `01 01 05 00 07 01 01 74 ${byte(n)} 01 70 00`, `1 5.0.1.type.-.-.7+1.-.-.-.10+1.${n}`)
    reads(2, type2(`01 ${byte(n)}`, '01 00', '05 02 74 70 41 00'), `1 5.0.1.type.-.-.11+1.-.-.-.12+1.${n}`)
    one('1@9', `01 01 05 00 07 01 01 74 ${byte(n)}|`)
    one('6@10', `01 01 05 00 07 01 01 74 ${byte(n)} 01 |ff 00`)
    two('1@2', `00 00| 01 05 00 00 01 07 05 02 74 70 41 00 01 01 01 ${byte(n)} 00 01 01 00 00`)
  }
  w(updates.content(1, 0, bytes('01 01 05 00 07 01 01 74 03 01 70 00')), '11@0')
  w(updates.list([1, ...bytes('01 01 05 00 07 01 01 74 03 01 70 00')]), prints('update form 1 blocks 1 ranges 0\n5 0 1 type\nend\n'))
  // One list for formats and types (K2): "p" is number 0, of an element, a hook and a format; with one text.
  reads(2, '00 02 01 00 02 45 00 01 00 00 03 07 00 87 05 02 74 70 41 00 01 01 02 03 05 00 01 02 00 00', '2 5.0.1.type.-.-.16+1.-.-.-.17+1.3 5.1.1.type.5:0.-.-.-.-.-.17+1.5')
  reads(2, '00 02 01 00 02 45 00 01 00 00 03 07 00 86 05 02 74 70 41 00 01 01 01 03 00 01 02 00 78 00', '2 5.0.1.type.-.-.16+1.-.-.-.17+1.3 5.1.1.format.5:0.-.-.-.-.28+1.17+1.-')
  // K7: over 6 is 5, at the info byte, before the node name; in form 1 whatever the number, in form 2 a value of 2^53 is 3 first, at its run.
  one('5@4', '01 01 05 00 |07 01 01 74 07 00')
  one('5@4', '01 01 05 00 |07 01 01 74 09')
  one('5@4', '01 01 05 00 |07 01 01 74 80 80 80 80 80 80 80 10 00')
  one('5@4', '01 01 05 00 |07 01 01 74 ff ff ff ff ff ff ff ff 7f 00')
  reads(1, '01 01 05 00 07 01 01 74 82 80 00 00', '1 5.0.1.type.-.-.7+1.-.-.-.-.2')
  one('2@8', `01 01 05 00 07 01 01 74 |${MORE} 00`)
  one('1@8', '01 01 05 00 07 01 01 74|')
  two('5@7', '00 00 01 05 00 00 01 |07 03 01 74 01 01 01 01 07 00 01 01 00 00')
  two('5@7', '00 00 01 05 00 00 01 |07 03 01 74 01 01 01 08 bf ff ff ff ff ff ff 1f 00 01 01 00 00')
  two('3@15', `00 00 01 05 00 00 01 07 03 01 74 01 01 01 08 |${LONG} 00 01 01 00 00`)
  two('1@15', '00 00 01 05 00 00 01 07 03 01 74 01 01 01 00| 00 01 01 00 00')
  two('1@16', '00 00 01 05 00 00 01 07 03 01 74 01 01 01 01 42| 00 01 01 00 00')
  two('3@16', `00 00 01 05 00 00 01 07 03 01 74 01 01 01 06 42 |${COUNT} 00 01 01 00 00`)
  two('2@15', `00 00 01 05 00 00 01 07 03 01 74 01 01 01 09 |${MORE} 00 01 01 00 00`)
  two('5@7', '00 00 01 05 00 00 01 |07 03 01 74 01 01 01 02 47 00 00 01 01 00 00')
  one('3@8', '01 01 05 ff ff ff ff 07 |07 01 01 74 01 00')
  one('8@4', '01 01 05 00 |07 01 01 74 01', 0, 0)
  // Strictly: what is left in the key column and in the type column; a run's remainder is none.
  w(updates.strict(2, bytes(type2('02 01 02'))), '15@16 zero')
  w(updates.strict(2, bytes(type2('02 41 07'))).split(' ')[0], '0')
  w(updates.strict(2, bytes(type2('01 03', '02 00 00', '05 02 74 70 41 00'))), '15@3 zero')
  w(updates.strict(2, bytes(type2('01 03', '02 01 07', '05 02 74 70 41 00'))).split(' ')[0], '0')
  w(updates.strict(2, bytes(type2('01 03', '01 00', '06 03 74 70 71 41 00'))), '15@13 zero')
  w(updates.strict(1, bytes('01 01 05 00 07 01 01 74 02 00 00')), '15@10 zero')
}

// ---- diffs

const written = () => {
  // W1: values are copied, a longer spelling too; JSON text with its blanks.
  gives(1, any1('01', '7d 81 00'), '00', any1('01', '7d 81 00'), any2('01', '7d 81 00'))
  gives(2, any2('01', '7d 81 00'), '00', any1('01', '7d 81 00'), any2('01', '7d 81 00'))
  gives(1, '01 01 05 00 06 01 01 74 01 62 03 20 31 20 00', '00', '01 01 05 00 06 01 01 74 01 62 03 20 31 20 00', '19@0')
  // W2: the first entries fall away, and the left id is the one before. A key's bit stays, the right id too.
  const cut = [any1('02', '7d 81 00 7d 01'), '01 05 01', '01 01 05 01 88 05 00 01 7d 01 00', '00 00 02 45 00 01 00 00 01 88 01 00 00 00 01 01 01 01 01 7d 01 00']
  gives(1, ...cut)
  gives(2, any2('02', '7d 81 00 7d 01'), ...cut.slice(1))
  gives(1, '01 01 05 00 28 01 01 6d 01 6b 03 7e 7f 78 00', '01 05 02', '01 01 05 02 a8 05 01 01 78 00', '00 00 02 45 00 01 02 00 01 a8 01 00 00 00 01 01 01 01 02 78 00')
  gives(1, '01 01 05 00 48 09 03 03 75 02 7e 76 00 77 01 61 7d 40 00', '01 05 01', '01 01 05 01 c8 05 00 09 03 02 77 01 61 7d 40 00')
  gives(1, '01 01 05 00 48 09 03 03 75 02 7e 76 00 77 01 61 7d 40 00', '01 05 02', '01 01 05 02 c8 05 01 09 03 01 7d 40 00')
  gives(1, '01 01 05 00 48 09 03 03 75 02 7e 76 00 77 01 61 7d 40 00', '01 05 03', ...NOTHING)
  // W3: equal keys have one number and one text, in order of first writing: that of the sections, highest client first, not that of reading.
  gives(1, '01 02 05 00 07 01 01 74 03 01 70 87 05 00 05 01 70 00', '00', '01 02 05 00 07 01 01 74 03 01 70 87 05 00 05 01 70 00',
    '00 02 01 00 02 45 00 01 00 00 03 07 00 87 05 02 74 70 41 00 01 01 02 03 05 00 01 02 00 00')
  gives(1, '02 01 05 00 07 01 01 74 03 01 61 01 09 00 07 01 01 74 03 01 62 00', '00', '02 01 09 00 07 01 01 74 03 01 62 01 05 00 07 01 01 74 03 01 61 00',
    '00 02 00 02 02 09 05 00 00 01 07 07 04 74 62 74 61 41 02 01 01 02 43 00 00 02 01 00 01 00 00')
  gives(2, '00 02 0a 4a 02 45 00 01 00 00 03 06 00 86 05 02 74 62 41 00 01 01 00 00 01 02 00 78 78 00', '00', '19@0',
    '00 02 01 00 02 45 00 01 00 00 03 06 00 86 05 02 74 62 41 00 01 01 00 00 01 02 00 78 78 00')
  // The first one falls away, and with it the number: "b" was 1 and is 0.
  gives(2, '00 02 00 02 02 45 00 01 00 00 03 07 00 87 06 03 74 61 62 41 01 01 01 02 43 00 00 01 02 00 00', '01 05 01', '01 01 05 01 87 05 00 03 01 62 00',
    '00 01 00 02 45 00 01 00 00 01 87 03 01 62 01 00 01 03 00 01 01 01 00')
  // W5: a kept format, either way; one that falls away is no matter, nor one that stands before what is kept. 9 goes first.
  const pair = '01 02 05 00 04 01 01 74 04 f0 9f 98 80 86 05 01 01 62 04 74 72 75 65 00'
  gives(1, pair, '00', pair, '19@0')
  gives(1, pair, '01 05 01', '9@0', '9@0')
  gives(1, pair, '01 05 02', '01 01 05 02 86 05 01 01 62 04 74 72 75 65 00', '19@0')
  gives(1, pair, '01 05 03', ...NOTHING)
}

// Sections of XML elements and of formats by their names, in form 1.
const element = name => ({ info: 7, name: 't', type: 3, mark: name })
const format = name => ({ info: 6, name: 't', mark: name, value: s.utf8('1') })
const names = (n, from = 0) => many(n, k => `n${from + k}`)
const ordered = () => {
  const asked = (what, sections, vector, ...numbers) => {
    const update = s.update(1, { sections })
    ;[1, 2].forEach(to => w(diffs.diff(1, to, update, bytes(vector), { room: numbers[to - 1] === 10 ? 0 : 65536 }).split(' ')[0], numbers[to - 1] === 0 ? '0' : `${numbers[to - 1]}@0`))
  }
  // W4: 257 distinct keys into form 2; 256 are written, and 300 elements of two names; of what is kept alone. Types and formats together.
  asked('256 elements', [section(5, 0, ...names(256).map(element))], '00', 0, 0)
  asked('257 elements', [section(5, 0, ...names(257).map(element))], '00', 0, 3)
  asked('257 elements, one known', [section(5, 0, ...names(257).map(element))], '01 05 01', 0, 0)
  asked('300 elements of two names', [section(5, 0, ...many(300, k => element(`n${k % 2}`)))], '00', 0, 0)
  asked('two sections', [section(5, 0, ...names(200).map(element)), section(9, 0, ...names(57, 200).map(element))], '00', 0, 3)
  asked('two sections, the same names', [section(5, 0, ...names(200).map(element)), section(9, 0, ...names(57, 143).map(element))], '00', 0, 0)
  // W6: 3 before 9, 9 before 19, 19 before 13, 13 before 10; in form 1 just 9 and 10.
  const pair = { info: 4, name: 't', text: '😀' }
  const far = { info: 129, left: [9, 2 ** 30], length: 1 }
  asked('257 formats', [section(5, 0, ...names(257).map(format))], '00', 0, 3)
  asked('256 formats', [section(5, 0, ...names(256).map(format))], '00', 0, 19)
  asked('3 before 9', [section(9, 0, pair), section(5, 0, ...names(257).map(format))], '01 09 01', 9, 3)
  asked('9 before 19', [section(9, 0, pair), section(5, 0, format('b'), far)], '01 09 01', 9, 9)
  asked('19 before 13', [section(9, 0, pair), section(5, 0, far, format('b'))], '00', 0, 19)
  asked('13 before 10', [section(5, 0, far, element('b'))], '00', 10, 13)
  asked('19 before 10', [section(5, 0, element('b'), format('b'))], '00', 10, 19)
  asked('a vector before 3', [section(5, 0, ...names(257).map(format))], '02 05 00 05', 4, 4)
}

// ---- where Yjs does otherwise: our line, and what Yjs reads (null: it throws). A value that it reads stands between bars, as it is shown.
const parts = (what, form, text, line, theirs) => {
  w(unplaced(updates.read(form, bytes(text))).split(' ranges')[0], line)
  const r = yjs.read(form, bytes(text))
  const found = r === null ? null : r.structs.map(yjs.theirRecord).join(', ')
  const wanted = theirs === null ? null : theirs.replace(/\|([^|]*)\|/g, (_, value) => `<${Buffer.from(value).toString('hex')}>`)
  if (found !== wanted) throw new Error(`${what}: Yjs reads ${found}`)
}
// What it writes of an update against the empty vector.
const writes = (what, form, to, text, theirs) => w(`${what} ${hex(yjsDiffs.theirs(form, to, bytes(text), [0]))}`, `${what} ${hex(bytes(theirs))}`)
const coloured = n => {
  const doc = new Y.Doc()
  doc.clientID = 5
  const text = doc.getText('t')
  doc.transact(() => many(n, k => {
    text.insert(text.length, 'word', { color: 'red' })
    text.insert(text.length, ' ', {})
  }))
  return doc
}
const partings = () => {
  // Each key under a new number, with its text again.
  const elements = '00 02 01 00 02 45 00 01 00 00 03 07 00 87 05 02 74 70 41 00 01 01 02 43 00 00 01 02 00 00'
  gives(2, elements, '00', '01 02 05 00 07 01 01 74 03 01 70 87 05 00 03 01 70 00', elements)
  writes('a key again', 2, 2, elements, '00 02 00 02 02 45 00 01 00 00 03 07 00 87 06 03 74 70 70 41 01 01 01 02 43 00 00 01 02 00 00')
  // So 128 coloured words are 256 keys, as Yjs writes them, and 129 are too many in form 2; in form 1 they read. There are more blocks than are ever lent, but
  // the content call has no rows: block 1 is the first word.
  for (const n of [128, 129]) {
    const [one, two] = [Y.encodeStateAsUpdate(coloured(n)), Y.encodeStateAsUpdateV2(coloured(n))].map(x => [...x])
    w(updates.content(1, 1, one), '0 776f7264')
    w(unplaced(updates.content(2, 1, two)), n === 128 ? '0 776f7264' : '3')
    if (yjs.read(2, two).structs.filter(x => x.content instanceof Y.ContentFormat).length !== 2 * n) throw new Error(`Yjs does not read ${n} coloured words`)
  }
  const nest = n => n === 0 ? '' : `[${nest(n - 1)}]`
  parts('depth over 16', 1, any1('01', `${times(16, '75 01')} 75 00`), '3 zero', `5 0 1 any none none <74> none none |${nest(17)}| none none`)
  parts('any-list of count 0', 1, any1('00', ''), '0 blocks 0', '5 0 0 any none none <74> none none || none none')
  parts('an integer that says more', 1, any1('01', '7d ff ff ff ff ff ff 97 ff 1f'), '0 blocks 1 5.0.1.any.-.-.7+1.-.-.9+10.-.-', null)
  gives(1, any1('01', '7d ff ff ff ff ff ff 97 ff 1f'), '00', any1('01', '7d ff ff ff ff ff ff 97 ff 1f'))
  parts('integer 2^53', 1, any1('01', '7d 80 80 80 80 80 80 80 20'), '0 blocks 1 5.0.1.any.-.-.7+1.-.-.9+9.-.-', '5 0 1 any none none <74> none none |9007199254740992| none none')
  writes('integer 2^53', 1, 1, any1('01', '7d 80 80 80 80 80 80 80 20'), any1('01', '7c 5a 00 00 00'))
  gives(1, any1('01', '7d 80 80 80 80 80 80 80 20'), '00', any1('01', '7d 80 80 80 80 80 80 80 20'))
  writes('longer spelling', 1, 1, any1('01', '7d 81 00'), any1('01', '7d 01'))
  parts('a key twice', 1, any1('01', '76 02 01 61 7e 01 61 78'), '0 blocks 1 5.0.1.any.-.-.7+1.-.-.9+8.-.-', '5 0 1 any none none <74> none none |{"a":true}| none none')
  writes('a key twice', 1, 1, any1('01', '76 02 01 61 7e 01 61 78'), any1('01', '76 01 01 61 78'))
  gives(1, any1('01', '76 02 01 61 7e 01 61 78'), '00', any1('01', '76 02 01 61 7e 01 61 78'))
  parts('JSON that is none', 1, '01 01 05 00 06 01 01 74 01 62 01 7d 00', '0 blocks 1 5.0.1.format.-.-.7+1.-.-.11+1.9+1.-', null)
  parts('key number below zero', 2, '00 01 42 01 05 00 00 01 06 08 05 74 62 6f 6c 64 01 04 01 01 00 00 01 01 00 78 00', '3 zero',
    '5 0 1 format none none <74> none none |true| none none')
  parts('key column past its end', 2, '00 00 01 05 00 00 01 07 05 02 74 70 41 00 01 01 01 03 00 01 01 00 00', '1 zero', '5 0 1 type none none <74> none none none <70> 3')
  parts('type column past its end', 2, '00 00 01 05 00 00 01 07 03 01 74 01 01 01 00 00 01 01 00 00', '1 zero', '5 0 1 type none none <74> none none none none 0')
  parts('type number in three bytes', 1, '01 01 05 00 07 01 01 74 82 80 00 00', '0 blocks 1 5.0.1.type.-.-.7+1.-.-.-.-.2', '5 0 1 type none none <74> none none none none 2')
  parts('type 7', 1, '01 01 05 00 07 01 01 74 07 00', '5 zero', null)
  parts('tag 115', 1, any1('01', '73'), '5 zero', null)
  parts('type number 258', 2, '00 00 01 05 00 00 01 07 03 01 74 01 01 01 02 82 04 00 01 01 00 00', '5 zero', null)
  parts('type number 2^53', 2, '00 00 01 05 00 00 01 07 03 01 74 01 01 01 08 80 80 80 80 80 80 80 20 00 01 01 00 00', '3 zero', null)
  parts('more values than there are', 1, '01 01 05 00 08 01 01 74 ff ff ff ff 07 7e', '1 zero', null)
  parts('an XML hook', 1, '01 01 05 00 07 01 01 74 05 01 70 00', '0 blocks 1 5.0.1.type.-.-.7+1.-.-.-.10+1.5', '5 0 1 type none none <74> none none none <70> 5')
  // The key "__proto__" sets what the object inherits, and is no key of it: Yjs loses it.
  const inherited = any1('01', '76 01 09 5f 5f 70 72 6f 74 6f 5f 5f 76 00')
  parts('the key __proto__', 1, inherited, '0 blocks 1 5.0.1.any.-.-.7+1.-.-.9+14.-.-', '5 0 1 any none none <74> none none |{}| none none')
  gives(1, inherited, '00', inherited)
  writes('the key __proto__', 1, 1, inherited, any1('01', '76 00'))
  // Values are written anew there: a whole float, and JSON text with blanks.
  writes('a whole float', 1, 1, any1('01', '7b 3f f0 00 00 00 00 00 00'), any1('01', '7d 01'))
  gives(1, any1('01', '7b 3f f0 00 00 00 00 00 00'), '00', any1('01', '7b 3f f0 00 00 00 00 00 00'))
  writes('JSON with blanks', 1, 1, '01 01 05 00 06 01 01 74 01 62 03 20 31 20 00', '01 01 05 00 06 01 01 74 01 62 01 31 00')
  // A format is converted there.
  writes('a format into form 2', 1, 2, BOLD[0], BOLD[1])
  writes('a format into form 1', 2, 1, BOLD[1], BOLD[0])
}

module.exports = { ANY, any1, any2, BOLD, coloured, all: () => [remark, anys, keys, types, written, ordered, partings].forEach(part => part()) }
