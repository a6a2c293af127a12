// Writes the cases of places (W-201) and what is expected of them: places.cjs FOLDER writes FOLDER/places.stdin and FOLDER/places.stdout. Where a refusal
// lies is worked by hand or follows from how its bytes were put together; the model has to say the same. `run` beside it installs what this needs.
'use strict'
const fs = require('fs')
const path = require('path')
const { COLUMNS } = require('./update-model.cjs')
const numbers = require('./cases.cjs')
const updates = require('./update-cases.cjs')
const diffs = require('./diff-cases.cjs')
const sorts = require('./sort-cases.cjs')
const byHand = require('./places-by-hand.cjs')
const s = require('./spelling.cjs')
const { bytes, worked: w } = require('./stream.cjs')
const { gc, section, replaced } = require('./shapes.cjs')
const { many } = require('./random.cjs')

const folder = process.argv[2]
const p = k => 2n ** BigInt(k)
const { MORE, COUNT, LONG, FAR } = byHand

// ---- put together from pieces, so that each place follows from the sizes before it: every number, text, info byte, run and count of an update in turn is
// spoilt in each way that there is.

const size = parts => parts.reduce((sum, part) => sum + part.length, 0)
const sum = numbers => numbers.reduce((a, b) => a + b, 0n)
const read = (form, why, update, ...rows) => w(updates.read(form, update, ...rows), `${why} zero`)
const whole = (form, update) => w(updates.read(form, update, 9, 3).split(' ').slice(0, 3).join(' '), '0 blocks 9')

// What is in line: numbers with the least that is over their limit (`null`: they have none), info bytes, texts, tags of values, other bytes. A tag and a type
// number have their block's number: what is refused of them lies at its info byte.
const number = (x, over = null, what = null) => ({ kind: 'number', value: BigInt(x), over, what })
const info = x => ({ kind: 'info', bytes: [x] })
const text = x => ({ kind: 'text', bytes: s.utf8(x) })
const plain = x => ({ kind: 'plain', bytes: x })
const tag = (x, block) => ({ kind: 'tag', bytes: [x], block })
const [CLIENTS, CLIENT, CLOCK] = [65, p(53), p(31)]
// Spoils one piece after the other. `make` gives an update with this in line, and where it begins there; `spell` has the numbers' bytes. Gives back the
// pieces' bytes, and `spoilt`, which puts something else in the place of the k-th.
const spoilInLine = (form, pieces, spell, make) => {
  const spelt = pieces.map(x => x.kind === 'number' ? spell(x.value) : x.bytes)
  const spoilt = (k, ...put) => {
    const { update, from } = make([...spelt.slice(0, k).flat(), ...put, ...spelt.slice(k + 1).flat()])
    return { update, place: from + size(spelt.slice(0, k)) }
  }
  pieces.forEach((x, k) => {
    const refuse = (n, ...put) => {
      const { update, place } = spoilt(k, ...put)
      read(form, `${n}@${place}`, update)
    }
    if (x.kind === 'number') {
      refuse(2, ...bytes(MORE), 0)
      if (x.over !== null) refuse(3, ...s.u(x.over))
      const { update, place } = spoilt(k)
      read(form, `1@${place}`, update.slice(0, place))
      read(form, `1@${place + 1}`, [...update.slice(0, place), 0x80])
    }
    if (x.kind === 'text') refuse(6, ...x.bytes.map((_, j) => j === x.bytes.length - 1 ? 0xff : 0x61))
    if (x.kind === 'info' && (x.bytes[0] & 31) !== 0 && x.bytes[0] !== 10) refuse(5, (x.bytes[0] & 0xe0) | 2)
  })
  return { spelt, spoilt }
}
const which = (pieces, test) => pieces.flatMap((x, k) => test(x) ? [k] : [])
const LENGTHS = [[2n, 2n, 3n], [1n, 1n, 3n], [1n, 1n, 3n]] // of the blocks of the sections
// An any-list's values: an integer, a string, an object that holds an array.
const VALUES = [tag(125, 8), number(5), tag(119, 8), number(2), text('é'), tag(118, 8), number(1), number(1), text('k'), tag(117, 8), number(1), tag(126, 8)]

// ---- form 1

const inLine1 = [
  number(3, CLIENTS), number(3, 65536), number(5, CLIENT), number(7, CLOCK, 'first'),
  info(0xc4), number(9, CLIENT), number(300, CLOCK), number(8, CLIENT), number(1, CLOCK), number(2), text('hi'),
  info(0), number(2, CLOCK),
  info(10), number(3, CLOCK),
  number(3, 65533), number(70000, CLIENT), number(0, CLOCK, 'first'),
  info(0x24), number(1, CLOCK), number(1), text('t'), number(1), text('k'), number(2), text('é'),
  info(3), number(0, CLOCK), number(9, CLIENT), number(4, CLOCK), number(2), plain([1, 2]),
  info(0x81), number(9, CLIENT), number(5, CLOCK), number(3, CLOCK),
  number(3, 65530), number(400, CLIENT), number(6, CLOCK, 'first'),
  info(0x86), number(9, CLIENT), number(6, CLOCK), number(1), text('b'), number(4), text('true'),
  info(0x87), number(9, CLIENT), number(7, CLOCK), number(3, null, 'type'), number(1), text('p'),
  info(0x88), number(9, CLIENT), number(8, CLOCK), number(3, CLOCK), ...VALUES,
  number(2, CLIENTS), number(9, CLIENT), number(2), number(3, CLOCK, 'range'), number(1, CLOCK, 'length'),
  number(9, CLOCK, 'range'), number(2, CLOCK, 'length'),
  number(300, CLIENT), number(1), number(1, CLOCK, 'range'), number(5, CLOCK, 'length')
]
const pieces1 = spell => {
  const make = update => ({ update, from: 0 })
  const { spelt, spoilt } = spoilInLine(1, inLine1, spell, make)
  const update = spelt.flat()
  whole(1, update)
  const at = k => size(spelt.slice(0, k))
  const infos = which(inLine1, x => x.kind === 'info')
  const ranges = which(inLine1, x => x.what === 'range')
  infos.forEach((k, rows) => read(1, `8@${at(k)}`, update, rows, 9))
  ranges.forEach((k, rows) => read(1, `8@${at(k)}`, update, 9, rows))
  // A tag that is none, and a type number over 6, at once and in nine bytes.
  which(inLine1, x => x.kind === 'tag').forEach(k => read(1, `5@${at(infos[inLine1[k].block])}`, spoilt(k, 5).update))
  which(inLine1, x => x.what === 'type').forEach(k => [7, p(63) - 1n].forEach(n => read(1, `5@${at(infos[7])}`, spoilt(k, ...s.u(n)).update)))
  // The end of each block over the limit, by its section's first clock; and of each range, by its length.
  which(inLine1, x => x.what === 'first').forEach((k, section) => LENGTHS[section].forEach((_, j) => {
    const clock = s.u(p(31) - 1n - sum(LENGTHS[section].slice(0, j)))
    const over = spoilt(k, ...clock).update
    const block = 3 * section + j
    for (const rows of [[], [block, 0]]) read(1, `3@${at(infos[block]) - spelt[k].length + clock.length}`, over, ...rows)
  }))
  ranges.forEach((k, rows) => read(1, `3@${at(k)}`, spoilt(k + 1, ...s.u(p(31) - 1n)).update, 9, rows))
  // The first section's client again, and the lengths of texts and of the binary over all that there is.
  const [client] = which(inLine1, x => x.value === 70000n)
  read(1, `4@${at(client)}`, spoilt(client, ...spell(5n)).update)
  which(inLine1, x => x.kind === 'text' || x.kind === 'plain').forEach(k => {
    const over = spoilt(k - 1, ...s.u(5000)).update
    read(1, `1@${over.length}`, over)
  })
}

// ---- form 2: the columns as runs, each drawn from

const columns2 = {
  key: [[0], [2]], // 0, 1
  client: [[5], [9], [8], [0xb0, 0xc5, 8], [0x49, 0], [0x90, 6], [0x49, 1]], // 5, 9, 8, 70000, 9 twice, 400, 9 three times
  left: [[0x98, 9], [0xd0, 9], [2], [3, 1]], // 300, 4, 5, 6, 7, 8
  right: [[2]],
  info: [[0xc4, 0], [0, 0], [10, 0], [0x24, 0], [3, 0], [0x81, 0], [0x86, 0], [0x87, 0], [0x88]],
  text: [[2], [0x41, 3]], // unit lengths, behind the text: "hi", "t", "k", "é", "b" and "p"
  parent: [[1, 0], [0]],
  type: [[3]],
  length: [[2], [0x43, 0]] // 2, 3 twice
}
const TEXT = s.sized(s.utf8('hitkébp'))
const inLine2 = [
  number(3, CLIENTS), number(3, 65536), number(7, CLOCK, 'first'), number(3, CLOCK),
  number(3, 65533), number(0, CLOCK, 'first'), number(2), plain([1, 2]),
  number(3, 65530), number(6, CLOCK, 'first'), tag(119, 6), number(1), text('r'), ...VALUES,
  number(2, CLIENTS), number(9, CLIENT), number(2), number(3, CLOCK, 'range'), number(0, CLOCK - 1n, 'length'),
  number(5, CLOCK - 4n, 'range'), number(1, CLOCK - 1n, 'length'),
  number(300, CLIENT), number(1), number(1, CLOCK, 'range'), number(4, CLOCK - 1n, 'length')
]
const bytesOf = (name, runs) => [...(name === 'text' ? TEXT : []), ...runs.flat()]
// The update of these columns and what is in line, and where each column begins; `sized` spells the columns' lengths.
const laid = (columns, rest, sized) => {
  const out = [0]
  const from = {}
  for (const name of COLUMNS) {
    const column = bytesOf(name, columns[name])
    out.push(...sized(BigInt(column.length)))
    from[name] = out.length
    out.push(...column)
  }
  return { update: [...out, ...rest], from: out.length, columns: from }
}
// A run that is refused: its number, what lies before the place in the run, what lies there; for 1 all of it lies before.
const RUNS = {
  numbers: [[2, '', MORE], [3, '', LONG], [2, '41', MORE], [3, '41', COUNT], [1, '80'], [1, '41'], [1, '41 80'], [1, '']],
  differences: [[2, '', MORE], [3, '', FAR], [3, '', 'c0 80 80 80 10'], [2, '03', MORE], [3, '03', COUNT], [1, '80'], [1, '03'], [1, '03 80'], [1, '']],
  bytes: [[2, '07', MORE], [3, '07', COUNT], [1, '07 80'], [1, '']]
}
const KINDS = { key: 'differences', client: 'numbers', left: 'differences', right: 'differences', info: 'bytes', text: 'numbers', parent: 'bytes', type: 'numbers', length: 'numbers' }
const pieces2 = (spell, sized) => {
  const make = rest => laid(columns2, rest, sized)
  const { spelt, spoilt } = spoilInLine(2, inLine2, spell, make)
  const rest = spelt.flat()
  const good = make(rest)
  whole(2, good.update)
  const at = k => good.from + size(spelt.slice(0, k))
  for (const [name, kind] of Object.entries(KINDS)) {
    columns2[name].forEach((_, k) => {
      // The column up to a run, then what is refused; for 1 it ends there, else the other runs follow.
      for (const [n, before, refused = ''] of [...RUNS[kind], ...(name === 'length' ? [[3, '', FAR]] : [])]) {
        const runs = [...columns2[name].slice(0, k), bytes(before), bytes(refused), ...(n === 1 ? [] : columns2[name].slice(k))]
        const { update, columns } = laid({ ...columns2, [name]: runs }, rest, sized)
        const place = n === 1 ? bytesOf(name, runs).length : bytesOf(name, runs.slice(0, k + 1)).length
        read(2, `${n}@${columns[name] + place}`, update)
      }
    })
  }
  // Rows, content number 2, a tag that is none, a type number over 6 and ends: at the info byte's run.
  const changed = columns => laid({ ...columns2, ...columns }, rest, sized)
  const infoAt = k => good.columns.info + size(columns2.info.slice(0, k))
  columns2.info.forEach(([x, ...count], k) => {
    read(2, `8@${infoAt(k)}`, good.update, k, 9)
    if (x !== 0 && x !== 10) read(2, `5@${infoAt(k)}`, changed({ info: replaced(columns2.info, k, [(x & 0xe0) | 2, ...count]) }).update)
  })
  which(inLine2, x => x.kind === 'tag').forEach(k => read(2, `5@${infoAt(inLine2[k].block)}`, spoilt(k, 5).update))
  for (const run of [[7], [0x47, 0], [0xbf, 0xff, 0xff, 0xff, 0xff, 0xff, 0xff, 0x1f]]) {
    const over = changed({ type: [run] })
    read(2, `5@${over.columns.info + size(columns2.info.slice(0, 7))}`, over.update)
  }
  which(inLine2, x => x.what === 'first').forEach((k, section) => LENGTHS[section].forEach((_, j) => {
    const over = spoilt(k, ...s.u(p(31) - 1n - sum(LENGTHS[section].slice(0, j)))).update
    const block = 3 * section + j
    for (const rows of [[], [block, 0]]) read(2, `3@${infoAt(block)}`, over, ...rows)
  }))
  const ranges = which(inLine2, x => x.what === 'range')
  ranges.forEach((k, rows) => {
    read(2, `8@${at(k)}`, good.update, 9, rows)
    read(2, `3@${at(k)}`, spoilt(k + 1, ...s.u(p(31) - 2n)).update, 9, rows)
  })
  // 70000 is 5 again; the text is not UTF-8; units run past it from the third text on, which begins at its fourth byte; none is left for the fourth.
  read(2, `4@${good.columns.client + 3}`, changed({ client: replaced(columns2.client, 3, [5]) }).update)
  const wrong = [...good.update]
  wrong[good.columns.text + 3] = 0xff
  read(2, `6@${good.columns.text + 1}`, wrong)
  const past = changed({ text: [[2], [1], [9], [1]] })
  read(2, `7@${past.columns.text + 1 + 3}`, past.update)
  const none = changed({ text: [[2], [1], [4], [1]] })
  read(2, `7@${none.columns.text + TEXT.length}`, none.update)
  // A column's length in ten bytes, and one over all that there is.
  for (const [k, name] of COLUMNS.entries()) {
    const lengths = put => {
      let n = -1
      return laid(columns2, rest, x => ++n === k ? put : sized(x))
    }
    const ten = lengths([...bytes(MORE), 0])
    read(2, `2@${ten.columns[name] - 10}`, ten.update)
    const over = lengths(s.u(5000))
    read(2, `1@${over.update.length}`, over.update)
  }
}

byHand.all()
for (const longer of [0, 1, 4]) {
  const spell = x => longer === 0 ? s.u(x) : s.padded(s.u(x), s.u(x).length + longer)
  pieces1(spell)
  pieces2(spell, spell)
}
// The 500th block comes from the same info byte as the first; in form 1 each GC takes two bytes, behind five.
const LAST = many(600, k => gc(1 + k % 3))
read(2, '8@7', s.update(2, { sections: [section(5, 0, ...LAST)] }), 499, 0)
read(1, '8@1003', s.update(1, { sections: [section(5, 0, ...LAST)] }), 499, 0)

const all = [updates, diffs, sorts, numbers]
fs.writeFileSync(path.join(folder, 'places.stdin'), Buffer.concat(all.map(c => c.stream())))
fs.writeFileSync(path.join(folder, 'places.stdout'), all.map(c => c.output()).join(''))
const lines = all.flatMap(c => c.output().split('\n').slice(0, -1))
console.log(`cases of places: ${lines.length}; refused at another place than 0: ${lines.filter(line => /^\d+@[1-9]/.test(line)).length}`)
