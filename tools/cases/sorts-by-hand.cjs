// Sorts worked by hand, by document 01 and the readings of it in docs/DECISIONS.md: the order, what is taken, the reaches and what is pending; the order of
// refusals; and where Yjs itself does something else.
'use strict'
const c = require('./sort-cases.cjs')
const s = require('./spelling.cjs')
const { Y, own, attempt, theirRecord } = require('./yjs.cjs')
const yjs = require('./yjs-sorts.cjs')
const { whole, tables } = require('./update-cases.cjs')
const { bytes, worked: w } = require('./stream.cjs')
const { gc, skip, section } = require('./shapes.cjs')
const { many } = require('./random.cjs')

const forms = [1, 2]
const vectorOf = entries => [...s.u(entries.length), ...entries.flatMap(([client, clock]) => [...s.u(client), ...s.u(clock)])]
const sort = (form, update, vector, lent) => c.sort(form, bytes(update), bytes(vector), lent)
// `why` is the number and the place.
const refused = (why, form, update, vector, lent) => w(sort(form, update, vector, lent), `${why} zero`)

// The four reports as they are printed, `;` between them: with order rows just enough, with one too few, and with rows in plenty.
const line = (form, update, reports) => `0 ${reports} ; ${tables(whole(form, update)).join(' ')} zero`
const steps = reports => reports.split(';')[0].split(' ').filter(x => x !== '').length
const exactly = (form, update, vector, reports) => {
  w(c.sort(form, update, vector, { orderRows: steps(reports) }), line(form, update, reports))
  if (steps(reports) > 0) w(c.sort(form, update, vector, { orderRows: steps(reports) - 1 }), '8@0 zero')
}
const answers = (form, update, vector, reports) => {
  exactly(form, update, vector, reports)
  w(c.sort(form, update, vector), line(form, update, reports))
}
const gives = (form, update, vector, reports) => answers(form, bytes(update), bytes(vector), reports)
// From sections and a vector's entries; in form 2 just with order rows just enough.
const both = (sections, entries, reports) => {
  const vector = vectorOf(entries)
  answers(1, s.update(1, { sections }), vector, reports)
  const two = s.update(2, { sections })
  w(c.sort(2, two, vector, { orderRows: steps(reports) }), line(2, two, reports))
}

// Deleted blocks that hang on other ids, and one that hangs on none.
const left = (id, length = 1) => ({ info: 129, left: id, length })
const right = (id, length = 1) => ({ info: 65, right: id, length })
const around = (one, two, length = 1) => ({ info: 193, left: one, right: two, length })
const inside = (id, length = 1) => ({ info: 1, parent: id, length })
const free = (length = 1) => ({ info: 1, name: 't', length })

const A = '00 00'
const B = '00 00 00 00 00 00 01 00 00 00 00 00 00'
const C = '01 01 05 00 04 01 01 74 02 68 69 00'
const D = '00 00 01 05 00 00 01 04 06 03 74 68 69 01 02 01 01 00 00 01 01 00 00'

const small = () => {
  // Nothing is nothing; the vector's clients are reported all the same, those at 0 too.
  for (const [form, update] of [[1, A], [2, B]]) {
    w(sort(form, update, '00', { blockRows: 0, rangeRows: 0, orderRows: 0 }), '0 ; ; ; ; blocks 0 ranges 0 zero')
    w(sort(form, update, '01 05 00'), '0 ; ; 5:0 ; ; blocks 0 ranges 0 zero')
    w(sort(form, update, '03 05 01 ff ff ff ff ff ff ff 0f 00 09 ff ff ff ff 07 ff'), '0 ; ; 9007199254740991:0 9:2147483647 5:1 ; ; blocks 0 ranges 0 zero')
  }
  // A section of no blocks, and an item of length 0: no client with blocks. Ranges are given back.
  w(sort(1, '01 00 05 03 00', '00'), '0 ; ; ; ; blocks 0 ranges 0 zero')
  w(sort(1, '01 01 05 03 81 09 00 00 00', '00', { blockRows: 0, orderRows: 0 }), '0 ; ; ; ; blocks 0 ranges 0 zero')
  w(sort(1, '01 01 05 03 81 09 00 00 00', '01 05 02'), '0 ; ; 5:2 ; ; blocks 0 ranges 0 zero')
  w(sort(1, '00 01 05 02 00 01 01 01', '01 05 02', { blockRows: 0, rangeRows: 2, orderRows: 0 }), '0 ; ; 5:2 ; ; blocks 0 ranges 1 5.0.2 zero')
  // The inputs of docs/DIFFERENCES.md, "Sorter".
  w(sort(1, '0101050304010174016100', '00'), '0 0 ; 5:1 ; 5:4 ; ; blocks 1 5.3.1.text.-.-.7+1.-.-.9+1.-.- ranges 0 zero')
  w(sort(1, '010205000a0204010174016100', '00'), '0 0 1 ; 5:2 ; 5:3 ; ; blocks 2 5.0.2.skip.-.-.-.-.-.-.-.- 5.2.1.text.-.-.9+1.-.-.11+1.-.- ranges 0 zero')
  w(sort(1, '02010900840501016201050304010174016100', '00'), '0 1 0 ; 9:1 5:1 ; 9:1 5:4 ; ; blocks 2 9.0.1.text.5:1.-.-.-.-.8+1.-.- 5.3.1.text.-.-.15+1.-.-.17+1.-.- ranges 0 zero')
  w(sort(1, '01010500840509016100', '00'), '0 0 ; 5:1 ; 5:1 ; ; blocks 1 5.0.1.text.5:9.-.-.-.-.8+1.-.- ranges 0 zero')
  w(sort(1, '01010500840900016100', '010501'), '0 ; 5:0 ; 5:1 ; 5>9:0 ; blocks 1 5.0.1.text.9:0.-.-.-.-.8+1.-.- ranges 0 zero')
  w(sort(1, '0102050004010174016104000500016200', '00'), '0 0 1 ; 5:2 ; 5:2 ; ; blocks 2 5.0.1.text.-.-.7+1.-.-.9+1.-.- 5.1.1.text.-.-.-.5:0.-.15+1.-.- ranges 0 zero')
  w(sort(1, '0301090084050001610107000001010500000100', '00'), '0 1 2 0 ; 9:1 7:1 5:1 ; 9:1 7:1 5:1 ; ; blocks 3 9.0.1.text.5:0.-.-.-.-.8+1.-.- 7.0.1.gc.-.-.-.-.-.-.-.- 5.0.1.gc.-.-.-.-.-.-.-.- ranges 0 zero')
  w(sort(1, '020109008405000161010500840700016200', '00'), '0 ; 9:0 5:0 ; 9:0 5:0 ; 9>5:0 5>7:0 ; blocks 2 9.0.1.text.5:0.-.-.-.-.8+1.-.- 5.0.1.text.7:0.-.-.-.-.16+1.-.- ranges 0 zero')
  w(sort(1, '01010503840900016100', '00'), '0 ; 5:0 ; 5:0 ; 5>9:0 ; blocks 1 5.3.1.text.9:0.-.-.-.-.8+1.-.- ranges 0 zero')
  w(sort(1, '0202090084050001610001010500840900016200', '00'), '0 ; 9:0 5:0 ; 9:0 5:0 ; 9>5:0 5>9:0 ; blocks 3 9.0.1.text.5:0.-.-.-.-.8+1.-.- 9.1.1.gc.-.-.-.-.-.-.-.- 5.0.1.text.9:0.-.-.-.-.18+1.-.- ranges 0 zero')
  w(sort(1, '0101058080808008000100', '00'), '3@3 zero')
  w(sort(1, '0100050000', '010501'), '0 ; ; 5:1 ; ; blocks 0 ranges 0 zero')
  w(sort(1, '020209000401017401610a05010500840903016200', '00'), '0 0 1 ; 9:2 5:0 ; 9:1 5:0 ; 5>9:1 ; blocks 3 9.0.1.text.-.-.7+1.-.-.9+1.-.- 9.1.5.skip.-.-.-.-.-.-.-.- 5.0.1.text.9:3.-.-.-.-.19+1.-.- ranges 0 zero')
  // C and D: the block is taken, known or not; a reach never falls.
  for (const [form, update] of [[1, C], [2, D]]) {
    for (const [vector, reach] of [['00', 2], ['01 05 00', 2], ['01 05 01', 2], ['01 05 02', 2], ['01 05 09', 9], ['01 05 ff ff ff ff 07', 2147483647]]) {
      gives(form, update, vector, `0 ; 5:1 ; 5:${reach} ;`)
    }
    gives(form, update, '02 09 03 04 00 ff ff', '0 ; 5:1 ; 9:3 5:2 4:0 ;')
  }
}

// M and N, with left, right and parent ids, sections in both orders, and with the two clients changed over.
const paper = () => {
  gives(1, '02 01 05 00 81 09 00 01 01 09 00 01 01 01 74 01 00', '00', '1 0 ; 9:1 5:1 ; 9:1 5:1 ;')
  for (const on of [left, right, inside]) {
    both([section(5, 0, on([9, 0])), section(9, 0, free())], [], '1 0 ; 9:1 5:1 ; 9:1 5:1 ;')
    both([section(9, 0, free()), section(5, 0, on([9, 0]))], [], '0 1 ; 9:1 5:1 ; 9:1 5:1 ;')
    both([section(9, 0, on([5, 0])), section(5, 0, free())], [], '1 0 ; 9:1 5:1 ; 9:1 5:1 ;')
    both([section(5, 0, on([9, 0]))], [], '; 5:0 ; 5:0 ; 5>9:0')
    both([section(5, 0, on([9, 0]))], [[9, 0]], '; 5:0 ; 9:0 5:0 ; 5>9:0')
    both([section(5, 0, on([9, 0])), section(9, 0, on([5, 0]))], [], '; 9:0 5:0 ; 9:0 5:0 ; 9>5:0 5>9:0')
    both([section(9, 0, on([5, 0])), section(5, 0, on([9, 0]))], [], '; 9:0 5:0 ; 9:0 5:0 ; 9>5:0 5>9:0')
    both([section(5, 0, on([9, 3]))], [[9, 3]], '; 5:0 ; 9:3 5:0 ; 5>9:3')
    both([section(5, 0, on([9, 2]))], [[9, 3]], '0 ; 5:1 ; 9:3 5:1 ;')
    both([section(9, 0, on([5, 3]))], [[5, 3]], '; 9:0 ; 9:0 5:3 ; 9>5:3')
    both([section(9, 0, on([5, 2]))], [[5, 3]], '0 ; 9:1 ; 9:1 5:3 ;')
    // The reach that a block makes: 9's ends at 4.
    both([section(5, 0, on([9, 4])), section(9, 2, free(2))], [], '1 ; 9:1 5:0 ; 9:4 5:0 ; 5>9:4')
    both([section(5, 0, on([9, 3])), section(9, 2, free(2))], [], '1 0 ; 9:1 5:1 ; 9:4 5:1 ;')
    // In the hole below it: met, by document 01 (W-206 is about that).
    both([section(5, 0, on([9, 0])), section(9, 2, free(2))], [], '1 0 ; 9:1 5:1 ; 9:4 5:1 ;')
  }
  // The most that there is: a clock of 2^31 - 1 is never met. Form 2 has no such step from 0.
  const most = 2 ** 31 - 1
  const one = (sections, entries, reports) => answers(1, s.update(1, { sections }), vectorOf(entries), reports)
  one([section(5, 0, left([9, most]))], [[9, most]], `; 5:0 ; 9:${most} 5:0 ; 5>9:${most}`)
  one([section(5, 0, right([9, most - 1]))], [[9, most]], `0 ; 5:1 ; 9:${most} 5:1 ;`)
  one([section(5, most, gc(0)), section(4, 0, left([5, most - 1]))], [], `0 1 ; 5:1 4:1 ; 5:${most} 4:1 ;`)
  both([section(2n ** 53n - 1n, 0, left([0, 0])), section(0, 0, gc(most))], [], `1 0 ; 9007199254740991:1 0:1 ; 9007199254740991:1 0:${most} ;`)
}

const skips = () => {
  // A Skip is free and lifts nothing: 9's "a" and its Skip of 5 are taken, 5's "b" hangs on (9, 3).
  gives(1, '02 02 09 00 04 01 01 74 01 61 0a 05 01 05 00 84 09 03 01 62 00', '00', '0 1 ; 9:2 5:0 ; 9:1 5:0 ; 5>9:1')
  // A GC behind it lifts the reach to 7, across the gap.
  gives(1, '02 03 09 00 04 01 01 74 01 61 0a 05 00 01 01 05 00 84 09 03 01 62 00', '00', '0 1 2 3 ; 9:3 5:1 ; 9:7 5:1 ;')
  // Alone, first and last, of length 0; the reach stays at 0 or where the vector has it.
  both([section(5, 0, skip(3))], [], '0 ; 5:1 ; 5:0 ;')
  both([section(5, 3, skip(0))], [[5, 2]], '0 ; 5:1 ; 5:2 ;')
  both([section(5, 0, skip(2), free(), skip(4))], [], '0 1 2 ; 5:3 ; 5:3 ;')
  both([section(5, 0, skip(2), skip(1), left([9, 0]), skip(4))], [], '0 1 ; 5:2 ; 5:0 ; 5>9:0')
  both([section(5, 0, skip(2), left([9, 0]), skip(4), gc(1)), section(9, 0, skip(1))], [], '4 0 ; 9:1 5:1 ; 9:0 5:0 ; 5>9:0')
  both([section(5, 0, skip(2), left([9, 0]), skip(4), gc(1)), section(9, 0, skip(1), gc(1))], [], '4 5 0 1 2 3 ; 9:2 5:4 ; 9:2 5:8 ;')
  // GCs hang on nothing. One of length 0 lifts the reach to its clock, behind a Skip too.
  both([section(5, 0, gc(2), gc(0), gc(3))], [], '0 1 2 ; 5:3 ; 5:5 ;')
  both([section(5, 3, gc(0)), section(9, 0, left([5, 2]))], [], '0 1 ; 9:1 5:1 ; 9:1 5:3 ;')
  both([section(5, 3, gc(0)), section(9, 0, left([5, 3]))], [], '0 ; 9:0 5:1 ; 9:0 5:3 ; 9>5:3')
  both([section(5, 0, skip(3), gc(0)), section(9, 0, left([5, 2]))], [], '0 1 2 ; 9:1 5:2 ; 9:1 5:3 ;')
  both([section(5, 1, gc(0), skip(9)), section(9, 0, left([5, 1]))], [], '0 1 ; 9:0 5:2 ; 9:0 5:1 ; 9>5:1')
  // Above its own client's reach a block is taken, and its Skip or the gap before it counts for nothing.
  gives(1, '01 01 05 03 04 01 01 74 01 61 00', '00', '0 ; 5:1 ; 5:4 ;')
  gives(1, '01 01 05 03 04 01 01 74 01 61 00', '01 05 02', '0 ; 5:1 ; 5:4 ;')
  gives(1, '01 01 05 03 04 01 01 74 01 61 00', '01 05 03', '0 ; 5:1 ; 5:4 ;')
}

// W-210: by rule 13 a block waits behind a gap, until its own client's reach has come to its clock.
const gaps = () => {
  const by13 = (update, vector, reports) => {
    const [u, v] = [bytes(update), bytes(vector)]
    w(c.ruled(13, 1, u, v), line(1, u, reports))
    w(c.ruled(13, 1, u, v, { orderRows: steps(reports) }), line(1, u, reports))
    if (steps(reports) > 0) w(c.ruled(13, 1, u, v, { orderRows: steps(reports) - 1 }), '8@0 zero')
  }
  const two = (sections, entries, reports) => {
    const update = s.update(2, { sections })
    w(c.ruled(13, 2, update, vectorOf(entries)), line(2, update, reports))
  }
  // A GC of length 0, a text; above, at and below the reach.
  by13('01 01 05 03 00 00 00', '00', '; 5:0 ; 5:0 ; 5>5:0')
  by13('01 01 05 03 04 01 01 74 01 61 00', '00', '; 5:0 ; 5:0 ; 5>5:0')
  by13('01 01 05 03 04 01 01 74 01 61 00', '01 05 02', '; 5:0 ; 5:2 ; 5>5:2')
  by13('01 01 05 03 04 01 01 74 01 61 00', '01 05 03', '0 ; 5:1 ; 5:4 ;')
  by13('01 01 05 03 04 01 01 74 01 61 00', '01 05 09', '0 ; 5:1 ; 5:9 ;')
  // A Skip is free and lifts nothing: the block behind it waits.
  by13('01 02 05 00 0a 02 04 01 01 74 01 61 00', '00', '0 ; 5:1 ; 5:0 ; 5>5:0')
  by13('01 02 05 00 0a 02 04 01 01 74 01 61 00', '01 05 02', '0 1 ; 5:2 ; 5:3 ;')
  by13('01 01 05 03 0a 02 00', '00', '0 ; 5:1 ; 5:0 ;')
  // Another client is reported first: left, right, parent, then its own.
  by13('01 01 05 03 84 09 00 01 61 00', '00', '; 5:0 ; 5:0 ; 5>9:0')
  by13('01 01 05 03 84 09 00 01 61 00', '01 09 01', '; 5:0 ; 9:1 5:0 ; 5>5:0')
  by13('01 01 05 03 84 09 00 01 61 00', '02 09 01 05 03', '0 ; 5:1 ; 9:1 5:4 ;')
  for (const on of [left, right, inside]) {
    two([section(5, 3, on([9, 0]))], [], '; 5:0 ; 5:0 ; 5>9:0')
    two([section(5, 3, on([9, 0])), section(9, 0, gc(1))], [], '1 ; 9:1 5:0 ; 9:1 5:0 ; 5>5:0')
    two([section(5, 3, on([9, 0])), section(9, 1, gc(1))], [[5, 3]], '; 9:0 5:0 ; 9:0 5:3 ; 9>9:0 5>9:0')
    two([section(5, 3, on([9, 0])), section(9, 1, gc(1))], [[5, 3], [9, 1]], '1 0 ; 9:1 5:1 ; 9:2 5:4 ;')
  }
  // An own dependency never holds it.
  by13('01 01 05 00 84 05 09 01 61 00', '00', '0 ; 5:1 ; 5:1 ;')
  // Another rule: 12, after the form and before anything of the update.
  for (const rule of [0, 1, 2, 12, 14, 27, 29, 128, 255]) {
    w(c.ruled(rule, 1, bytes(C), [0]), '12@0 zero')
    w(c.ruled(rule, 3, bytes(C), [0]), '12@0 zero')
    w(c.ruled(rule, 1, [], [2, 5, 0, 5], { blockRows: 0, orderRows: 0 }), '12@0 zero')
  }
  for (const rule of [13, 28]) {
    w(c.ruled(rule, 3, bytes(C), [0]), '12@0 zero')
    w(c.ruled(rule, 1, [], [0]), '1@0 zero')
    w(c.ruled(rule, 1, bytes(C), [2, 5, 0, 5]), '4@0 zero')
  }
  const late = bytes('01 01 05 03 04 01 01 74 01 61 00')
  w(c.ruled(28, 1, late, [0]), line(1, late, '0 ; 5:1 ; 5:4 ;'))
}

const fronts = () => {
  // A block's own client never holds it: ids that are not there, the block's own, later ones.
  for (const on of [left, right, inside]) {
    for (const clock of [0, 1, 7, 2 ** 30 - 1]) both([section(5, 0, on([5, clock]))], [], '0 ; 5:1 ; 5:1 ;')
    both([section(5, 3, on([5, 2])), section(9, 0, on([9, 9]))], [[5, 1]], '1 0 ; 9:1 5:1 ; 9:1 5:4 ;')
  }
  both([section(5, 0, around([5, 9], [9, 0]))], [], '; 5:0 ; 5:0 ; 5>9:0')
  both([section(5, 0, around([9, 0], [5, 9]))], [[9, 1]], '0 ; 5:1 ; 9:1 5:1 ;')
  // The first unmet one is named: left before right. Both on one client: its reach is the same.
  both([section(5, 0, around([9, 0], [7, 0]))], [], '; 5:0 ; 5:0 ; 5>9:0')
  both([section(5, 0, around([7, 0], [9, 0]))], [], '; 5:0 ; 5:0 ; 5>7:0')
  both([section(5, 0, around([9, 0], [7, 2]))], [[9, 1], [7, 1]], '; 5:0 ; 9:1 7:1 5:0 ; 5>7:1')
  both([section(5, 0, around([9, 1], [7, 0]))], [[9, 1], [7, 1]], '; 5:0 ; 9:1 7:1 5:0 ; 5>9:1')
  both([section(5, 0, around([9, 0], [9, 3]))], [[9, 3]], '; 5:0 ; 9:3 5:0 ; 5>9:3')
  both([section(5, 0, around([9, 0], [7, 0])), section(9, 0, gc(1))], [], '1 ; 9:1 5:0 ; 9:1 5:0 ; 5>7:0')
  // Just the front counts: the block behind it waits for what is there, or would be named.
  both([section(5, 0, left([9, 0]), free())], [], '; 5:0 ; 5:0 ; 5>9:0')
  both([section(5, 0, free(), left([9, 0]), left([7, 0]), free())], [], '0 ; 5:1 ; 5:1 ; 5>9:0')
  both([section(5, 0, free(), left([9, 0]), left([7, 0]), free())], [[9, 1]], '0 1 ; 5:2 ; 9:1 5:2 ; 5>7:0')
  // The highest client whose front is ready: 9 as soon as 5's first is taken, then 5 again. 7 goes on before 5.
  both([section(5, 0, free(), free()), section(9, 0, left([5, 0]))], [], '0 2 1 ; 9:1 5:2 ; 9:1 5:2 ;')
  both([section(5, 0, free(), free()), section(9, 0, left([5, 1]))], [], '0 1 2 ; 9:1 5:2 ; 9:1 5:2 ;')
  both([section(5, 0, free(), free()), section(7, 0, free(), left([9, 0]), free()), section(9, 0, left([5, 0]))], [], '2 0 5 3 4 1 ; 9:1 7:3 5:2 ; 9:1 7:3 5:2 ;')
  // One client and the other in turn: 9 hangs on 5, 5 on 9, up to an end that is not there.
  both([section(5, 0, free(), left([9, 0]), left([9, 1])), section(9, 0, left([5, 0]), left([5, 1]), left([5, 3]))], [],
    '0 3 1 4 2 ; 9:2 5:3 ; 9:2 5:3 ; 9>5:3')
  // Circles of two and of three, with blocks behind them, and one client that waits for a circle.
  both([section(5, 0, free(), left([9, 1])), section(9, 0, free(), left([5, 1]))], [], '2 0 ; 9:1 5:1 ; 9:1 5:1 ; 9>5:1 5>9:1')
  both([section(5, 0, left([9, 0])), section(7, 0, left([5, 0])), section(9, 0, left([7, 0]))], [], '; 9:0 7:0 5:0 ; 9:0 7:0 5:0 ; 9>7:0 7>5:0 5>9:0')
  both([section(5, 0, left([9, 0]), gc(1)), section(7, 0, left([9, 0])), section(9, 0, left([5, 0]), gc(2))], [], '; 9:0 7:0 5:0 ; 9:0 7:0 5:0 ; 9>5:0 7>9:0 5>9:0')
  both([section(5, 0, left([9, 0])), section(7, 0, left([9, 0])), section(9, 0, left([5, 0]))], [[5, 1]], '2 1 0 ; 9:1 7:1 5:1 ; 9:1 7:1 5:1 ;')
  // A known block with an unmet id is pending too, and its reach stays.
  both([section(5, 0, left([9, 0]))], [[5, 7]], '; 5:0 ; 5:7 ; 5>9:0')
}

// A read block has two dependencies at most; three of one client: left and right of its first block, the parent of its second. They are met one after the
// other in every order: `first` hangs on nothing, `second` on it, `third` on that. Whatever the clients, 5 is between, below or above them.
const everyOrder = () => {
  for (const clients of [[6, 7, 9], [1, 2, 3], [1, 7, 9]]) {
    for (const [first, second, third] of [[0, 1, 2], [0, 2, 1], [1, 0, 2], [1, 2, 0], [2, 0, 1], [2, 1, 0]].map(order => order.map(k => clients[k]))) {
      const [x, y, z] = clients
      const waits = [section(first, 0, gc(1)), section(second, 0, left([first, 0])), section(third, 0, left([second, 0]))]
      const sections = [section(5, 0, around([x, 0], [y, 0]), inside([z, 0])), ...waits]
      const named = [...clients, 5].sort((a, b) => b - a)
      const all = n => named.map(client => `${client}:${client === 5 ? 2 : n}`).join(' ')
      // Block 0 is taken when x and y are there, at the next step if no higher client is ready; then block 1, when z is.
      const order = []
      const done = new Set()
      const number = new Map([[first, 2], [second, 3], [third, 4]])
      const next = () => {
        const ready = [[first, []], [second, [first]], [third, [second]]].filter(([client, on]) => !done.has(client) && on.every(k => done.has(k))).map(([client]) => client)
        const five = !done.has('0') ? done.has(x) && done.has(y) : !done.has('1') && done.has(z)
        return [...ready, ...(five ? [5] : [])].sort((a, b) => b - a)[0]
      }
      for (let client = next(); client !== undefined; client = next()) {
        const block = client === 5 ? (done.has('0') ? '1' : '0') : client
        order.push(client === 5 ? Number(block) : number.get(client))
        done.add(block)
      }
      both(sections, [], `${order.join(' ')} ; ${all(1)} ; ${all(1)} ;`)
      // Without the first nothing is taken: 5 waits for x, which waits or is not there.
      const without = [sections[0], ...waits.slice(1)]
      const few = named.filter(client => client !== first)
      const on = new Map([[second, first], [third, second], [5, x]])
      both(without, [], `; ${few.map(k => `${k}:0`).join(' ')} ; ${few.map(k => `${k}:0`).join(' ')} ; ${few.map(k => `${k}>${on.get(k)}:0`).join(' ')}`)
    }
  }
}

// 64 clients, and 64 others in the vector.
const wide = () => {
  const rising = many(64, k => k)
  const falling = [...rising].reverse()
  const list = (clients, word) => clients.map(word).join(' ')
  const one = list(falling, k => `${k}:1`)
  const none = list(falling, k => `${k}:0`)
  // No one waits; sections in rising, falling and another order.
  const mixed = rising.map(k => (k * 29) % 64)
  exactly(1, s.update(1, { sections: rising.map(k => section(k, 0, gc(1))) }), [0], `${list(falling, k => k)} ; ${one} ; ${one} ;`)
  exactly(2, s.update(2, { sections: mixed.map(k => section(k, 0, gc(1))) }), [0], `${list(falling, k => mixed.indexOf(k))} ; ${one} ; ${one} ;`)
  w(c.sort(1, s.update(1, { sections: many(65, k => section(k, 0, gc(1))) }), [0]), '3@0 zero')
  w(c.sort(1, s.update(1, { sections: rising.map(k => section(k, 0, gc(1))) }), vectorOf(many(65, k => [k, 1]))), '3@0 zero')
  // Each waits for the next lower one, or for the next higher one; then the end of the chain waits for a client that is not there.
  const chain = (form, sections, on, end) => s.update(form, { sections: sections.map(k => section(k, 0, k === end ? gc(1) : left([on(k), 0]))) })
  const lower = k => k - 1
  const higher = k => k + 1
  exactly(1, chain(1, falling, lower, 0), [0], `${list(rising, k => 63 - k)} ; ${one} ; ${one} ;`)
  exactly(2, chain(2, mixed, lower, 0), [0], `${list(rising, k => mixed.indexOf(k))} ; ${one} ; ${one} ;`)
  exactly(2, chain(2, rising, higher, 63), [0], `${list(falling, k => k)} ; ${one} ; ${one} ;`)
  exactly(1, chain(1, mixed, higher, 63), [0], `${list(falling, k => mixed.indexOf(k))} ; ${one} ; ${one} ;`)
  exactly(1, chain(1, rising, higher), [0], `; ${none} ; ${none} ; ${list(falling, k => `${k}>${k + 1}:0`)}`)
  exactly(2, chain(2, rising, higher), vectorOf([[64, 1]]), `${list(falling, k => k)} ; ${one} ; 64:1 ${one} ;`)
  exactly(1, chain(1, falling, lower, 0), vectorOf([[31, 1]]),
    `${list(many(32, k => 32 + k), k => 63 - k)} ${list(many(32, k => k), k => 63 - k)} ; ${one} ; ${one} ;`)
  // A circle of all 64.
  exactly(2, chain(2, rising, k => (k + 1) % 64), [0], `; ${none} ; ${none} ; ${list(falling, k => `${k}>${(k + 1) % 64}:0`)}`)
  // 128 reaches: the sections have even clients, the vector odd ones at clock 3. Each waits for the one above it, at 3 or at 2.
  const others = many(64, k => [2 * k + 1, 3])
  const at = clock => s.update(1, { sections: rising.map(k => section(2 * k, 0, left([2 * k + 1, clock(k)]))) })
  const reaches = reach => list(falling, k => `${2 * k + 1}:3 ${2 * k}:${reach(k)}`)
  const counts = n => list(falling, k => `${2 * k}:${n(k)}`)
  exactly(1, at(() => 2), vectorOf(others), `${list(falling, k => k)} ; ${counts(() => 1)} ; ${reaches(() => 1)} ;`)
  exactly(1, at(() => 3), vectorOf([...others].reverse()), `; ${counts(() => 0)} ; ${reaches(() => 0)} ; ${list(falling, k => `${2 * k}>${2 * k + 1}:3`)}`)
  const [even, odd] = [falling.filter(k => k % 2 === 0), falling.filter(k => k % 2 === 1)]
  exactly(1, at(k => 2 + k % 2), vectorOf(others),
    `${list(even, k => k)} ; ${counts(k => 1 - k % 2)} ; ${reaches(k => 1 - k % 2)} ; ${list(odd, k => `${2 * k}>${2 * k + 1}:3`)}`)
}

const order = () => {
  // An unknown form comes first: no byte is there, rows are none, the vector is bad.
  for (const form of [0, 3, 4, 255]) {
    refused('12@0', form, '', '', { blockRows: 0, rangeRows: 0, orderRows: 0 })
    refused('12@0', form, C, '00')
  }
  // The update comes before the vector, its rows too; then the vector; then the order's rows.
  const bad = [['1', ''], ['1', '01 05'], ['1', '02 05 01'], ['2', '80 80 80 80 80 80 80 80 80'], ['2', '01 05 ff ff ff ff ff ff ff ff ff'],
    ['3', '41'], ['3', '01 05 80 80 80 80 08'], ['3', '01 80 80 80 80 80 80 80 10'], ['4', '02 05 01 05'], ['4', '03 05 01 09 01 05 01']]
  for (const [number, vector] of bad) {
    refused('1@5', 1, '01 01 05 00 82', vector)
    refused('5@4', 1, '01 01 05 00 82 09 00', vector)
    refused('6@8', 2, '00 00 00 00 00 00 02 01 ff 00 00 00 00 00', vector)
    refused('4@5', 1, '02 00 05 00 00 05', vector, { orderRows: 0 })
    refused('8@4', 1, C, vector, { blockRows: 0 })
    refused('8@7', 2, D, vector, { blockRows: 0, rangeRows: 0, orderRows: 0 })
    refused('8@6', 1, '00 01 05 02 00 01 01 01', vector, { blockRows: 0, rangeRows: 1 })
    refused(`${number}@0`, 1, C, vector)
    refused(`${number}@0`, 2, D, vector, { blockRows: 1, rangeRows: 0, orderRows: 0 })
    refused(`${number}@0`, 1, C, vector, { orderRows: 0 })
    refused(`${number}@0`, 1, A, vector, { blockRows: 0, rangeRows: 0, orderRows: 0 })
  }
  // Rows of each kind, one after the other; pending blocks take no order row, Skips do; an item of length 0 takes no row at all.
  refused('8@4', 1, C, '00', { blockRows: 0, orderRows: 1 })
  refused('8@0', 1, C, '00', { blockRows: 1, orderRows: 0 })
  refused('8@0', 1, '01 01 05 00 0a 02 00', '00', { orderRows: 0 })
  w(sort(1, '01 01 05 00 81 09 00 01 00', '00', { blockRows: 1, rangeRows: 0, orderRows: 0 }), '0 ; 5:0 ; 5:0 ; 5>9:0 ; blocks 1 5.0.1.deleted.9:0.-.-.-.-.-.-.- ranges 0 zero')
  refused('8@0', 1, '01 01 05 00 81 09 00 01 00', '01 09 01', { blockRows: 1, rangeRows: 0, orderRows: 0 })
  refused('8@4', 1, '01 01 05 00 81 09 00 01 00', '00', { blockRows: 0, rangeRows: 0, orderRows: 0 })
  refused('8@13', 1, '01 01 05 00 81 09 00 01 01 05 02 00 01 01 01', '00', { blockRows: 1, rangeRows: 1, orderRows: 0 })
  w(sort(1, '01 01 05 00 81 09 00 01 01 05 02 00 01 01 01', '00', { blockRows: 1, rangeRows: 2, orderRows: 0 }),
    '0 ; 5:0 ; 5:0 ; 5>9:0 ; blocks 1 5.0.1.deleted.9:0.-.-.-.-.-.-.- ranges 1 5.0.2 zero')
  // As many rows as a case may lend, all used: 512 GCs and 512 steps; then 513.
  const many512 = n => s.update(2, { sections: [section(5, 0, ...many(n, () => gc(1)))] })
  exactly(2, many512(512), [0], `${many(512, k => k).join(' ')} ; 5:512 ; 5:512 ;`)
  w(c.sort(2, many512(513), [0]), '8@7 zero')
}

// A Yjs document's state and pending blocks.
const after = doc => {
  const pending = doc.store.pendingStructs === null ? [] : Y.decodeUpdateV2(doc.store.pendingStructs.update).structs
  const state = [...Y.decodeStateVector(Y.encodeStateVector(doc))].map(([client, clock]) => `${client}:${clock}`)
  return [...state, ';', ...pending.map(x => theirRecord(x).split(' ').slice(0, 4).join('.'))].join(' ')
}
// Where Yjs does something else: our line, and what a Yjs document with the vector's state has afterwards (null: it throws).
const parts = (what, update, state, reports, theirs) => {
  answers(1, bytes(update), vectorOf(state), reports)
  const doc = yjs.holding(state.map(([client, clock]) => ({ client, clock: BigInt(clock) })))
  const done = attempt(() => {
    Y.applyUpdate(doc, own(bytes(update)))
    return after(doc)
  })
  if (done !== theirs) throw new Error(`${what}: Yjs has ${done}`)
}
const partings = () => {
  parts('a block above its own reach', '01 01 05 03 04 01 01 74 01 61 00', [], '0 ; 5:1 ; 5:4 ;', '; 5.3.1.text')
  parts('a block behind a Skip', '01 02 05 00 0a 03 84 05 02 01 62 00', [], '0 1 ; 5:2 ; 5:4 ;', '; 5.3.1.text')
  parts('a dependency in a hole', '02 01 05 00 81 09 00 01 01 09 02 00 01 00', [], '1 0 ; 9:1 5:1 ; 9:3 5:1 ;', '; 9.2.1.gc 5.0.1.deleted')
  parts('an id of its own client that is not there', '01 01 05 00 81 05 07 01 00', [], '0 ; 5:1 ; 5:1 ;', null)
  // Yjs cannot write what it keeps back.
  parts('a GC of length 0 behind a block that waits', '01 02 05 00 81 09 00 01 00 00 00', [], '; 5:0 ; 5:0 ; 5>9:0', null)
  // 9's first block waits for 5's, 5's for it: Yjs then looks at 9's second one, and the first is lost.
  parts('a circle with more behind', '02 01 05 00 81 09 00 01 02 09 00 81 05 00 01 00 01 00', [], '; 9:0 5:0 ; 9:0 5:0 ; 9>5:0 5>9:0', '; 9.1.1.gc 5.0.1.deleted')
  // 9's block waits for (5, 0), and 5's at 3 for the clocks before it: Yjs notes just this, and when (5, 0) comes, 9's block is not looked at.
  const doc = yjs.empty()
  for (const update of ['02 01 09 00 81 05 00 01 01 05 03 00 01 00', '01 01 05 00 00 01 00']) Y.applyUpdate(doc, own(bytes(update)))
  w(after(doc), '5:1 ; 9.0.1.deleted 5.3.1.gc')
  yjs.askAgain(doc)
  w(after(doc), '9:1 5:1 ; 5.3.1.gc')
  gives(1, '02 01 09 00 81 05 00 01 01 05 03 00 01 00', '01 05 01', '0 1 ; 9:1 5:1 ; 9:1 5:4 ;')
}

// W-211: the lowest client first, all its fronts that are ready, and once more for what another client has made ready; the refusals in their order.
const sweeps = () => {
  const slow = (rule, update, vector, reports) => {
    w(c.slowly(rule, 1, bytes(update), bytes(vector), { orderRows: steps(reports) }), line(1, bytes(update), reports))
    if (steps(reports) > 0) w(c.slowly(rule, 1, bytes(update), bytes(vector), { orderRows: steps(reports) - 1 }), '8@0 zero')
  }
  const two = '02 01 09 00 00 01 02 05 00 00 01 00 01 00'
  gives(1, two, '00', '0 1 2 ; 9:1 5:2 ; 9:1 5:2 ;')
  slow(28, two, '00', '1 2 0 ; 9:1 5:2 ; 9:1 5:2 ;')
  slow(13, two, '00', '1 2 0 ; 9:1 5:2 ; 9:1 5:2 ;')
  const second = '02 03 05 00 00 01 81 09 00 01 00 01 01 09 00 00 01 00'
  gives(1, second, '00', '3 0 1 2 ; 9:1 5:3 ; 9:1 5:3 ;')
  slow(28, second, '00', '0 3 1 2 ; 9:1 5:3 ; 9:1 5:3 ;')
  slow(28, '02 01 05 00 81 09 00 01 01 09 00 81 05 00 01 00', '00', '; 9:0 5:0 ; 9:0 5:0 ; 9>5:0 5>9:0')
  slow(13, '01 01 05 03 00 01 00', '00', '; 5:0 ; 5:0 ; 5>5:0')
  slow(28, '01 01 05 03 00 01 00', '00', '0 ; 5:1 ; 5:4 ;')
  w(c.slowly(14, 1, bytes(two), bytes('00')), '12@0 zero')
  w(c.slowly(28, 3, bytes(two), bytes('00')), '12@0 zero')
  w(c.slowly(28, 1, bytes(two), bytes('01')), '1@0 zero')
  w(c.slowly(28, 1, bytes('02 01 09'), bytes('01')), '1@3 zero')
}

module.exports = { all: () => [small, paper, skips, gaps, fronts, everyOrder, wide, order, partings, sweeps].forEach(part => part()) }
