// The known disagreements: for each a name, the words that its row of docs/DIFFERENCES.md begins with, and when it holds. What is compared is `x`:
//   number, what, value, column, masked, longType: ours: its refusal (0: none), and of what, by the model of documents 01 and 02, which has answered the same
//   beyond: a value that JavaScript does not have was read
//   got: what the other side did: 'read', 'error', 'panic' (Rust), 'stopped' (Yjs, after 200,000 draws), 'died' (Rust, without memory)
// Ours refuses first, so a class says for what; what the other side makes of the bytes behind is not looked at, but each class names what it may have done.
'use strict'

const refused = (number, ...what) => x => x.number === number && (what.length === 0 || what.includes(x.what))
const both = (...tests) => x => tests.every(t => t(x))
const either = (...tests) => x => tests.some(t => t(x))
const form = n => x => x.form === n
const did = (...got) => x => got.includes(x.got)
const over = least => x => x.value >= least
const P32 = 2n ** 32n
// Nine bytes in turn that say more: no number of ten bytes is without them.
const ten = x => {
  let n = 0
  return x.bytes.some(b => {
    n = b > 127 ? n + 1 : 0
    return n === 9
  })
}
const contents = (...numbers) => x => refused(5, 'content')(x) && numbers.includes(x.value & 31)

// ---- reading an update: Yjs (decodeUpdate, decodeUpdateV2)

const clocks = refused(3, 'clock', 'length', 'end')
const deletes = refused(3, 'delete clock', 'delete length', 'delete end')
const limits = [ // the limits of documents 01 and 02, which neither Yjs nor yrs has
  ['more than 256 keys', 'more than 256 keys in form 2', both(form(2), refused(3, 'key list'))],
  ['values inside 17 arrays and objects', 'values inside 17 arrays and objects', refused(3, 'depth')],
  ['65 sections', '65 sections', refused(3, 'sections')],
  ['65,536 blocks', '65,536 blocks', refused(3, 'blocks')],
  ["a Skip's length over 2^31-1", "a Skip's length over 2^31-1", refused(3, 'Skip length')],
  ['parent info over 2^31-1', 'parent info 2^31', refused(3, 'parent info')],
  ['65 delete-set clients', '65 delete-set clients', refused(3, 'delete clients')],
  ['client in two sections', 'client in two sections', refused(4)]
]
// It read all, or was still reading at 200,000 draws.
const on = did('read', 'stopped')
const yjs = [
  // Any outcome: the bytes behind a flag over 127 are other columns there.
  ['flag over 127', 'flag is a number', both(form(2), x => x.bytes[0] > 127)],
  ['item of length 0', 'item of length 0', both(refused(0), did('read'), x => x.dropped)],
  ['low bits 0 with other bits', 'low bits 0 with other bits', both(x => x.masked, x => x.number !== 0)],
  ['content 2 (JSON)', 'content number 2', both(contents(2), on)],
  ['contents 5, 9', 'embeds and documents', both(contents(5, 9), on)],
  ['an integer that says more, JSON that is none', 'integer past 2^53-1 that says more', both(refused(0), did('error'), x => x.beyond)],
  ['an integer of 2^53 and more, the key __proto__', 'integer of 2^53 and more otherwise', both(refused(0), on, x => x.beyond)],
  ['blocks without end', 'blocks without end', both(form(2), refused(3, 'blocks'), did('stopped'))],
  ...limits.map(([name, row, test]) => [name, row, both(test, on)]),
  ['client over 2^53-1', 'client 2^53', both(either(refused(3, 'client'), refused(3, 'column value')), on)],
  ['clock, length or end over 2^31-1', 'clock, length, end over 2^31-1', both(clocks, on)],
  ['delete-set client over 2^53-1', 'delete-set client 2^53', both(refused(3, 'delete client'), on)],
  ['delete range over 2^31-1', "a delete range's clock or end over 2^31-1", both(deletes, on)],
  ['run count over 2,147,483,645', 'stored run count 2147483646', both(form(2), refused(3, 'run count'), on)],
  ['difference outside 32 bits', 'difference of 2^30', both(form(2), refused(3, 'difference'), on)],
  ['column clock over 2^31-1', 'clock over 2^31-1', both(form(2), refused(3, 'column clock'), on)],
  ['clock below zero', 'clock below zero', both(form(2), refused(3, 'column clock below zero'), on)],
  ["column's length in ten bytes or more", "column's length in ten bytes", both(form(2), refused(2, 'column length'), ten, on)],
  ['number of ten bytes or more', 'number of ten bytes', both(refused(2), x => x.what !== 'column length', ten, on)],
  ['text longer than its column', 'text length past its column, inside the update', both(form(2), refused(1, 'text opened'), x => x.textPast, on)],
  ['column read past its end', 'column read past its end', both(form(2), refused(1), x => x.column && x.past, on)],
  ['units end in a pair', 'units end in a pair', both(form(2), refused(7, 'in a pair'), on)],
  ['units past the text', 'units past the text', both(form(2), refused(7, 'past the text'), on)]
]

// ---- reading an update: yrs's text; `checked` or release

const went = did('read', 'panic')
const yrs = [
  ['delete-set client twice', 'delete-set client twice', both(refused(0), did('read'), x => x.twice)],
  ['content 17, 19, 20, 22 to 24: four bits', 'content number 20, 17, 19', both(contents(17, 19, 20, 22, 23, 24), went)],
  // Any outcome: the bytes behind a type number's first one are read as something else there.
  ['type number in more than a byte', 'type number in more than a byte', both(form(1), x => x.longType)],
  ['type number from 256 on', 'type number 258, 2^53', both(form(2), refused(5, 'type number'), over(256n), went)],
  ...limits.map(([name, row, test]) => [name, row, both(test, went)]),
  ['client over 2^53-1', 'client 2^53', both(refused(3, 'client'), x => x.checked ? x.got === 'panic' : went(x))],
  ['delete-set client over 2^53-1', 'delete-set client 2^53', both(refused(3, 'delete client'), x => x.checked ? x.got === 'panic' : went(x))],
  ['column value over 2^53-1', 'number column value 2^53', both(form(2), refused(3, 'column value'), went)],
  ['length over 2^32-1 in form 2', 'length 2^32+1', both(form(2), refused(3, 'length'), over(P32), went)],
  ['clock, length or end over 2^31-1', 'clock, length, end over 2^31-1', both(clocks, x => x.value < P32, went)],
  ['end over 2^32-1', 'end over 2^32-1', both(refused(3, 'end'), over(P32), went)],
  ['delete range over 2^31-1', "a delete range's clock or end over 2^31-1", both(deletes, x => x.value < P32, went)],
  ['delete range over 2^32-1', "a delete range's end over 2^32-1", both(refused(3, 'delete end'), over(P32), went)],
  ['delete length 2^32 in form 2', 'form 2: length 2^32', both(form(2), refused(3, 'delete length'), over(P32), went)],
  ['delete clock over 2^32-1 in form 2', 'form 2: clock over 2^32-1', both(form(2), refused(3, 'delete clock'), over(P32), went)],
  ['run count over 2,147,483,645', 'stored run count 2147483646', both(form(2), refused(3, 'run count'), went)],
  ['column clock over 2^31-1', 'clock over 2^31-1', both(form(2), refused(3, 'column clock'), went)],
  ['clock below zero', 'clock below zero', both(form(2), refused(3, 'column clock below zero'), went)],
  ["column's length cut short", "column's length cut short; the text's own", both(form(2), refused(1, 'column length', 'text opened'), did('panic'))],
  ["column's length in ten bytes or more", "column's length in ten bytes", both(form(2), refused(2, 'column length', 'text opened'), ten, did('read'))],
  ["column's length in eleven bytes or more", "column's length in eleven bytes", both(form(2), refused(2, 'column length', 'text opened'), ten, did('panic'))],
  ['units end in a pair', 'units end in a pair', both(form(2), refused(7, 'in a pair'), x => x.checked ? x.got === 'panic' : went(x))],
  ['units past the text', 'units past the text', both(form(2), refused(7, 'past the text'), went)],
  ['no memory for what is announced', 'counts with nothing behind them', both(x => x.number !== 0, did('died'))]
]

// ---- columns by themselves: lib0, and yrs's text. `got` is what it does where ours refuses: 'read' a value more, 'error', 'panic'.

const kind = (...k) => x => k.includes(x.kind)
const columns = [
  ['number of ten bytes or more', 'number of ten bytes', both(refused(2), ten, went)],
  ['run count over 2,147,483,645', 'stored run count 2147483646', both(kind(0, 1, 3), refused(3, 'run count'), went)],
  ['stored count of a byte over 2,147,483,645', 'stored count of a byte 2^31-1', both(kind(2), refused(3, 'run count'), went)],
  ['value over 2^53-1', 'number column value 2^53', both(kind(0, 3), refused(3, 'column value'), went)],
  ['difference outside 32 bits', 'e of 2^31', both(kind(1), refused(3, 'difference'), went)],
  ['clock over 2^31-1', 'clock over 2^31-1', both(kind(1), refused(3, 'column clock'), went)],
  ['clock below zero', 'clock below zero', both(kind(1), refused(3, 'column clock below zero'), went)],
  ['units end in a pair', 'units end in a pair', both(kind(3), refused(7, 'in a pair'), went)],
  ['units past the text', 'units past the text', both(kind(3), refused(7, 'past the text'), did('read'))]
]
const lib0Columns = [
  ['number column past its end', 'number column past its end', both(kind(0, 3), refused(1), did('read'))],
  ['difference column past its end', 'difference column past its end', both(kind(1), refused(1), did('read'))],
  ...columns
]
const yrsColumns = [
  ["text column's length cut short", "column's length cut short; the text's own", both(kind(3), refused(1, 'text opened'), did('panic'))],
  ["text column's length in ten bytes or more", "column's length in ten bytes", both(kind(3), refused(2, 'text opened'), ten, did('read'))],
  ["text column's length in eleven bytes or more", "column's length in eleven bytes", both(kind(3), refused(2, 'text opened'), ten, did('panic'))],
  ...columns
]

// ---- diffs and sorts of yrs's text; those of Yjs are judged by tools/cases, which leaves out what is listed and says how many these were

const yrsDiffs = [
  ['cut in a pair', 'cut in a pair', both(refused(9), went)],
  ['difference outside -2^30 to 2^30-1', 'difference 2^30', both(refused(13), went)],
  ['a mark into the other form', 'a mark into the other form', both(refused(19), went)],
  ['more than 256 keys', 'more than 256 keys in form 2', both(refused(3), went)],
  ['type number in more than a byte', 'type number in more than a byte', both(form(1), x => x.longType)],
  ['delete-set client twice', 'delete-set client twice', both(refused(0), x => x.twice)],
  ['delete range of length 0', 'range of length 0', both(refused(0), x => x.emptyRange)]
]
// What tools/cases/yjs-diffs.cjs and yjs-sorts.cjs count and do not hold against Yjs as it is, by the names they have there.
const counted = {
  'Yjs diffs': {
    pair: ['ours refuses 9', 'cut in a pair'],
    far: ['ours refuses 13', 'difference 2^30'],
    format: ['ours refuses 19', 'a mark into the other form'],
    keys: ['ours refuses 3 for keys', 'more than 256 keys in form 2'],
    respelt: ['values that Yjs spells in another way: records compared', 'values in a longer spelling, whole floats'],
    beyond: ['a value that JavaScript does not have: not compared', 'integer of 2^53 and more otherwise'],
    empty: ['item of length 0: compared without it only', 'item of length 0 above the remote clock'],
    falling: ['ranges that fall or are empty: compared in order only', 'ranges fall, form 2 written'],
    flag: ['flag over 127: not compared', 'flag is a number']
  },
  'Yjs sorts': {
    circle: ['ring with blocks behind: not compared', 'ring, with a block behind it'],
    empty: ['block of length 0, where Yjs throws: not compared', 'item of length 0'],
    own: ['dependency on the own client, not there: Yjs throws', "dependency on the block's own client, not there"],
    beyond: ['a value that JavaScript does not have: not compared', 'integer of 2^53 and more otherwise'],
    flag: ['flag over 127: not compared', 'flag is a number']
  }
}
const yrsSorts = [
  ['dependency on the own client, not there', "dependency on the block's own client, not there", both(refused(0), x => x.hung)],
  ['type number in more than a byte', 'type number in more than a byte', both(form(1), x => x.longType)]
]

const tables = { Yjs: yjs, yrs, lib0: lib0Columns, 'yrs columns': yrsColumns, 'yrs diffs': yrsDiffs, 'yrs sorts': yrsSorts }
// The name of the class that this belongs to, or null.
const classOf = (side, x) => tables[side].find(([, , test]) => test(x))?.[0] ?? null
const rows = [
  ...Object.entries(tables).flatMap(([side, all]) => all.map(([name, row]) => [side, name, row])),
  ...Object.entries(counted).flatMap(([side, all]) => Object.values(all).map(([name, row]) => [side, name, row]))
]
// Classes whose row is not in the page: no row of a table there begins with these words.
const missing = page => {
  const lines = page.split('\n')
  return rows.filter(([, , row]) => !lines.some(line => line.startsWith(`| ${row}`))).map(r => r.join(': '))
}

module.exports = { classOf, missing, counted, rowOf: (side, name) => rows.find(([s, n]) => s === side && n === name)[2] }
