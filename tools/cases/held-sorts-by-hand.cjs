// Sorts by held ids (W-206) worked by hand, by document 02 and the readings H1 to H7 of it: the order, what is taken, what is pending and the held ids; what
// meets an id and what does not; which id is named; the order of refusals.
'use strict'
const c = require('./sort-cases.cjs')
const s = require('./spelling.cjs')
const { whole, tables } = require('./update-cases.cjs')
const { bytes, worked: w } = require('./stream.cjs')
const { gc, skip, section } = require('./shapes.cjs')
const { many } = require('./random.cjs')

const forms = [1, 2]
const held = (form, update, ids, lent) => c.held(form, bytes(update), bytes(ids), lent)
// `why` is the number and the place.
const refused = (why, form, update, ids, lent) => w(held(form, update, ids, lent), `${why} zero`)

// Order, taken, pending and held as they are printed, `;` between them: with rows in plenty, with order rows just enough, and with one too few.
const line = (form, update, reports) => `0 ${reports} ; ${tables(whole(form, update)).join(' ')} zero`
const steps = reports => reports.split(';')[0].split(' ').filter(x => x !== '').length
const answers = (form, update, ids, reports) => {
  w(c.held(form, update, ids), line(form, update, reports))
  w(c.held(form, update, ids, { orderRows: steps(reports) }), line(form, update, reports))
  if (steps(reports) > 0) w(c.held(form, update, ids, { orderRows: steps(reports) - 1 }), '8@0 zero')
}
const gives = (form, update, ids, reports) => answers(form, bytes(update), bytes(ids), reports)
// From sections and held clients, in both forms.
const both = (sections, ids, reports) => forms.forEach(form => answers(form, s.update(form, { sections }), c.heldBytes(ids), reports))

// Deleted blocks that hang on other ids, and one that hangs on none.
const left = (id, length = 1) => ({ info: 129, left: id, length })
const right = (id, length = 1) => ({ info: 65, right: id, length })
const around = (one, two, length = 1) => ({ info: 193, left: one, right: two, length })
const inside = (id, length = 1) => ({ info: 1, parent: id, length })
const free = (length = 1) => ({ info: 1, name: 't', length })
const ways = [left, right, inside]

const A = '00 00'
const B = '00 00 00 00 00 00 01 00 00 00 00 00 00'
const C = '01 01 05 00 04 01 01 74 02 68 69 00'
const D = '00 00 01 05 00 00 01 04 06 03 74 68 69 01 02 01 01 00 00 01 01 00 00'

const small = () => {
  // Nothing is nothing; the held ids stand all the same.
  for (const [form, update] of [[1, A], [2, B]]) {
    w(held(form, update, '00', { blockRows: 0, rangeRows: 0, heldRows: 0, orderRows: 0 }), '0 ; ; ; held 0 ; blocks 0 ranges 0 zero')
    w(held(form, update, '01 05 01 00 02', { blockRows: 0, rangeRows: 0, heldRows: 1, orderRows: 0 }), '0 ; ; ; held 1 5.0.2 ; blocks 0 ranges 0 zero')
  }
  // A section of no blocks, and an item of length 0: no client with blocks. The update's ranges are given back too.
  w(held(1, '01 00 05 03 00', '00'), '0 ; ; ; held 0 ; blocks 0 ranges 0 zero')
  w(held(1, '01 01 05 03 81 09 00 00 00', '00', { blockRows: 0, orderRows: 0 }), '0 ; ; ; held 0 ; blocks 0 ranges 0 zero')
  w(held(1, '00 01 05 02 00 01 01 01', '01 05 01 04 01', { blockRows: 0, rangeRows: 2, heldRows: 1, orderRows: 0 }), '0 ; ; ; held 1 5.4.1 ; blocks 0 ranges 1 5.0.2 zero')
  // H1: bytes behind are accepted. H4: (9, 1) lies in a taken Skip, and is not held. H5: nothing is asked of a block's own clock, or of its own client's ids.
  gives(1, '01 01 05 00 81 09 00 01 00', '01 09 01 00 01 55', '0 ; 5:1 ; ; held 1 9.0.1')
  gives(1, '02 03 09 00 04 01 01 74 01 61 0a 01 04 01 01 74 01 62 01 05 00 84 09 01 01 78 00', '00', '0 1 2 ; 9:3 5:0 ; 5>9:1 ; held 0')
  gives(1, '01 01 05 03 84 05 07 01 61 00', '00', '0 ; 5:1 ; ; held 0')
  // C and D: the block is taken, held or not.
  for (const [form, update] of [[1, C], [2, D]]) {
    gives(form, update, '00', '0 ; 5:1 ; ; held 0')
    gives(form, update, '01 05 01 00 02', '0 ; 5:1 ; ; held 1 5.0.2')
    gives(form, update, '02 05 01 01 01 09 01 00 03', '0 ; 5:1 ; ; held 2 9.0.3 5.1.1')
  }
}

// M and N, with left, right and parent ids.
const paper = () => {
  for (const on of ways) {
    both([section(5, 0, on([9, 0])), section(9, 0, free())], [], '1 0 ; 9:1 5:1 ; ; held 0')
    both([section(9, 0, on([5, 0])), section(5, 0, free())], [], '1 0 ; 9:1 5:1 ; ; held 0')
    both([section(5, 0, on([9, 0]))], [], '; 5:0 ; 5>9:0 ; held 0')
    both([section(5, 0, on([9, 0])), section(9, 0, on([5, 0]))], [], '; 9:0 5:0 ; 9>5:0 5>9:0 ; held 0')
    // A circle, opened by what is held.
    both([section(5, 0, on([9, 0])), section(9, 0, on([5, 0]))], [[9, [[0, 1]]]], '0 1 ; 9:1 5:1 ; ; held 1 9.0.1')
    // At the ends of a held range, and beside it.
    both([section(5, 0, on([9, 2]))], [[9, [[3, 2]]]], '; 5:0 ; 5>9:2 ; held 1 9.3.2')
    both([section(5, 0, on([9, 3]))], [[9, [[3, 2]]]], '0 ; 5:1 ; ; held 1 9.3.2')
    both([section(5, 0, on([9, 4]))], [[9, [[3, 2]]]], '0 ; 5:1 ; ; held 1 9.3.2')
    both([section(5, 0, on([9, 5]))], [[9, [[3, 2]]]], '; 5:0 ; 5>9:5 ; held 1 9.3.2')
    // Another client's range at the same clocks holds nothing of it.
    both([section(5, 0, on([9, 3]))], [[8, [[3, 2]]], [10, [[3, 2]]]], '; 5:0 ; 5>9:3 ; held 2 10.3.2 8.3.2')
    // At the ends of a taken block, and beside it: 9's has the ids 2 and 3.
    both([section(5, 0, on([9, 1])), section(9, 2, free(2))], [], '1 ; 9:1 5:0 ; 5>9:1 ; held 0')
    both([section(5, 0, on([9, 2])), section(9, 2, free(2))], [], '1 0 ; 9:1 5:1 ; ; held 0')
    both([section(5, 0, on([9, 3])), section(9, 2, free(2))], [], '1 0 ; 9:1 5:1 ; ; held 0')
    both([section(5, 0, on([9, 4])), section(9, 2, free(2))], [], '1 ; 9:1 5:0 ; 5>9:4 ; held 0')
    // In the hole below it: not met, but by what is held (W-206). The reach is above it all the same.
    both([section(5, 0, on([9, 0])), section(9, 2, free(2))], [[9, [[1, 1]]]], '1 ; 9:1 5:0 ; 5>9:0 ; held 1 9.1.1')
    both([section(5, 0, on([9, 0])), section(9, 2, free(2))], [[9, [[0, 1]]]], '1 0 ; 9:1 5:1 ; ; held 1 9.0.1')
  }
  // The most that there is: the highest clock of an id lies in no range and no block, since these end there.
  const most = 2 ** 31 - 1
  const one = (sections, ids, reports) => answers(1, s.update(1, { sections }), c.heldBytes(ids), reports)
  one([section(5, 0, left([9, most]))], [[9, [[0, most]]]], `; 5:0 ; 5>9:${most} ; held 1 9.0.${most}`)
  one([section(5, 0, left([9, most - 1]))], [[9, [[0, most]]]], `0 ; 5:1 ; ; held 1 9.0.${most}`)
  one([section(5, 0, left([9, most - 1]))], [[9, [[most - 1, 1]]]], `0 ; 5:1 ; ; held 1 9.${most - 1}.1`)
  one([section(5, 0, left([9, most - 1])), section(9, 0, gc(most))], [], '1 0 ; 9:1 5:1 ; ; held 0')
  one([section(5, 0, left([2n ** 53n - 1n, 0])), section(0, 0, left([5, 0]))], [[2n ** 53n - 1n, [[0, 1]]]], '0 1 ; 5:1 0:1 ; ; held 1 9007199254740991.0.1')
}

// Skips, GCs, blocks of length 0, and gaps: what a taken block holds.
const holds = () => {
  for (const on of ways) {
    // A Skip holds nothing, wherever it is; the block behind it is taken, above a gap, and holds its ids alone.
    both([section(9, 0, skip(2)), section(5, 0, on([9, 1]))], [], '0 ; 9:1 5:0 ; 5>9:1 ; held 0')
    both([section(9, 0, skip(2), gc(1)), section(5, 0, on([9, 1]))], [], '0 1 ; 9:2 5:0 ; 5>9:1 ; held 0')
    both([section(9, 0, skip(2), gc(1)), section(5, 0, on([9, 2]))], [], '0 1 2 ; 9:2 5:1 ; ; held 0')
    both([section(9, 0, skip(2), gc(1)), section(5, 0, on([9, 1]))], [[9, [[1, 1]]]], '0 1 2 ; 9:2 5:1 ; ; held 1 9.1.1')
    both([section(9, 0, gc(1), skip(3), free(2), skip(1)), section(5, 0, on([9, 0]), on([9, 5]), on([9, 4]), on([9, 3]))], [],
      '0 1 2 3 4 5 6 ; 9:4 5:3 ; 5>9:3 ; held 0')
    // A GC of length 0 holds nothing: not its own clock, not those below it.
    both([section(9, 3, gc(0)), section(5, 0, on([9, 2]))], [], '0 ; 9:1 5:0 ; 5>9:2 ; held 0')
    both([section(9, 3, gc(0)), section(5, 0, on([9, 3]))], [], '0 ; 9:1 5:0 ; 5>9:3 ; held 0')
    both([section(9, 3, gc(0), gc(0), skip(0), gc(1)), section(5, 0, on([9, 3]))], [], '0 1 2 3 4 ; 9:4 5:1 ; ; held 0')
    both([section(9, 3, gc(0), gc(0), skip(0), skip(1)), section(5, 0, on([9, 3]))], [], '0 1 2 3 ; 9:4 5:0 ; 5>9:3 ; held 0')
    // GCs and deleted items hold their ids as others do; a block that is not taken holds none.
    both([section(9, 0, gc(3)), section(5, 0, on([9, 2]))], [], '0 1 ; 9:1 5:1 ; ; held 0')
    both([section(9, 0, free(3)), section(5, 0, on([9, 2]))], [], '0 1 ; 9:1 5:1 ; ; held 0')
    both([section(9, 0, left([7, 0], 3)), section(5, 0, on([9, 2]))], [], '; 9:0 5:0 ; 9>7:0 5>9:2 ; held 0')
    // What is held of a client does not make its blocks known, or its fronts ready.
    both([section(5, 0, on([9, 0])), section(9, 0, on([7, 0]))], [[9, [[0, 1]]]], '0 ; 9:0 5:1 ; 9>7:0 ; held 1 9.0.1')
    // The block's own client never holds it: ids that are not there, its own, later ones, though nothing is held.
    for (const clock of [0, 1, 7, 2 ** 30 - 1]) both([section(5, 0, on([5, clock]))], [], '0 ; 5:1 ; ; held 0')
    both([section(5, 3, on([5, 2])), section(9, 7, on([9, 9]))], [[5, [[7, 1]]]], '1 0 ; 9:1 5:1 ; ; held 1 5.7.1')
  }
  // Taken across a gap, step by step: 5's blocks at 4 and 9, and 7 waits for one between.
  both([section(5, 4, gc(1), skip(4), gc(1)), section(7, 0, left([5, 4]), left([5, 9]), left([5, 6]))], [], '0 3 1 2 4 ; 7:2 5:3 ; 7>5:6 ; held 0')
  both([section(5, 4, gc(1), skip(4), gc(1)), section(7, 0, left([5, 4]), left([5, 9]), left([5, 6]))], [[5, [[6, 1]]]], '0 3 1 2 4 5 ; 7:3 5:3 ; ; held 1 5.6.1')
}

// The first unmet one is named, left, right, parent: its client and its own clock, whatever else is held of that client.
const named = () => {
  both([section(5, 0, around([9, 0], [7, 0]))], [], '; 5:0 ; 5>9:0 ; held 0')
  both([section(5, 0, around([7, 3], [9, 4]))], [], '; 5:0 ; 5>7:3 ; held 0')
  both([section(5, 0, around([9, 1], [9, 3]))], [], '; 5:0 ; 5>9:1 ; held 0')
  both([section(5, 0, around([9, 3], [9, 1]))], [], '; 5:0 ; 5>9:3 ; held 0')
  both([section(5, 0, around([9, 3], [9, 1]))], [[9, [[3, 1]]]], '; 5:0 ; 5>9:1 ; held 1 9.3.1')
  both([section(5, 0, around([9, 3], [9, 1]))], [[9, [[1, 1]]]], '; 5:0 ; 5>9:3 ; held 1 9.1.1')
  both([section(5, 0, around([9, 3], [9, 1]))], [[9, [[1, 1], [3, 1]]]], '0 ; 5:1 ; ; held 2 9.1.1 9.3.1')
  both([section(5, 0, around([9, 0], [7, 0])), section(9, 0, gc(1))], [], '1 ; 9:1 5:0 ; 5>7:0 ; held 0')
  both([section(5, 0, around([9, 0], [7, 0])), section(7, 0, gc(1))], [], '1 ; 7:1 5:0 ; 5>9:0 ; held 0')
  both([section(5, 0, around([5, 9], [9, 6]))], [], '; 5:0 ; 5>9:6 ; held 0')
  both([section(5, 0, around([9, 6], [5, 9]))], [[9, [[5, 3]]]], '0 ; 5:1 ; ; held 1 9.5.3')
  both([section(5, 0, inside([9, 6])), section(9, 4, gc(2), skip(1), gc(1))], [], '1 2 3 ; 9:3 5:0 ; 5>9:6 ; held 0')
  // A block that is read has a left and a right id or a parent id, never all three; of three blocks each names its own.
  both([section(5, 0, left([9, 0]), right([8, 0]), inside([7, 0]))], [], '; 5:0 ; 5>9:0 ; held 0')
  both([section(5, 0, left([9, 0]), right([8, 0]), inside([7, 0]))], [[9, [[0, 1]]]], '0 ; 5:1 ; 5>8:0 ; held 1 9.0.1')
  both([section(5, 0, left([9, 0]), right([8, 0]), inside([7, 0]))], [[8, [[0, 1]]], [9, [[0, 1]]]], '0 1 ; 5:2 ; 5>7:0 ; held 2 9.0.1 8.0.1')
  both([section(5, 0, left([9, 0]), right([8, 0]), inside([7, 0]))], [[7, [[0, 1]]], [8, [[0, 1]]], [9, [[0, 1]]]], '0 1 2 ; 5:3 ; ; held 3 9.0.1 8.0.1 7.0.1')
}

// Steps: the highest client whose front is ready.
const turns = () => {
  both([section(5, 0, free(), free()), section(9, 0, left([5, 0]))], [], '0 2 1 ; 9:1 5:2 ; ; held 0')
  both([section(5, 0, free(), free()), section(9, 0, left([5, 0]))], [[5, [[0, 1]]]], '2 0 1 ; 9:1 5:2 ; ; held 1 5.0.1')
  both([section(5, 0, free(), free()), section(7, 0, free(), left([9, 0]), free()), section(9, 0, left([5, 0]))], [], '2 0 5 3 4 1 ; 9:1 7:3 5:2 ; ; held 0')
  both([section(5, 0, free(), left([9, 0]), left([9, 1])), section(9, 0, left([5, 0]), left([5, 1]), left([5, 3]))], [], '0 3 1 4 2 ; 9:2 5:3 ; 9>5:3 ; held 0')
  both([section(5, 0, left([9, 0])), section(7, 0, left([5, 0])), section(9, 0, left([7, 0]))], [], '; 9:0 7:0 5:0 ; 9>7:0 7>5:0 5>9:0 ; held 0')
  both([section(5, 0, left([9, 0])), section(7, 0, left([5, 0])), section(9, 0, left([7, 0]))], [[7, [[0, 1]]]], '2 0 1 ; 9:1 7:1 5:1 ; ; held 1 7.0.1')
}

// Held ids in any order, empty, touching, overlapping, a client twice: in normal form they are the same.
const ranges = () => {
  const on = clock => [section(5, 0, left([9, clock]))]
  const same = (ids, rows, normal, taken, pending) => {
    for (let clock = 0; clock < 12; clock++) {
      both(on(clock), ids, taken.includes(clock) ? `0 ; 5:1 ; ; ${normal}` : `; 5:0 ; 5>9:${clock} ; ${normal}`)
    }
    const update = s.update(1, { sections: on(11) })
    const [bytes, reports] = [c.heldBytes(ids), taken.includes(11) ? `0 ; 5:1 ; ; ${normal}` : `; 5:0 ; 5>9:11 ; ${normal}`]
    w(c.held(1, update, bytes, { heldRows: rows }), line(1, update, reports))
    if (rows > 0) w(c.held(1, update, bytes, { heldRows: rows - 1 }), '8@0 zero')
  }
  same([], 0, 'held 0', [])
  same([[9, []]], 0, 'held 0', [])
  same([[9, [[4, 0], [0, 0]]], [3, [[7, 0]]]], 0, 'held 0', [])
  same([[9, [[4, 2], [1, 2]]]], 2, 'held 2 9.1.2 9.4.2', [1, 2, 4, 5])
  same([[9, [[4, 2], [2, 2]]]], 2, 'held 1 9.2.4', [2, 3, 4, 5])
  same([[9, [[4, 5], [2, 4]]]], 2, 'held 1 9.2.7', [2, 3, 4, 5, 6, 7, 8])
  same([[9, [[2, 7], [4, 1]]]], 2, 'held 1 9.2.7', [2, 3, 4, 5, 6, 7, 8])
  same([[9, [[4, 1], [4, 1], [4, 1]]]], 3, 'held 1 9.4.1', [4])
  same([[9, [[4, 1]]], [7, [[5, 1]]], [9, [[5, 1], [3, 0]]]], 3, 'held 2 9.4.2 7.5.1', [4, 5])
  same([[3, [[0, 12]]], [9, [[10, 1], [0, 1], [6, 1]]], [11, [[0, 12]]]], 5, 'held 5 11.0.12 9.0.1 9.6.1 9.10.1 3.0.12', [0, 6, 10])
}

// W-211: the lowest client first, all its fronts that are ready, and once more for what another client has made ready; what is held alone, and refusals.
const sweeps = () => {
  const slow = (sections, ids, reports) => forms.forEach(form => {
    const update = s.update(form, { sections })
    const bytes = c.heldBytes(ids)
    w(c.heldSlowly(form, update, bytes, { orderRows: steps(reports) }), line(form, update, reports))
    if (steps(reports) > 0) w(c.heldSlowly(form, update, bytes, { orderRows: steps(reports) - 1 }), '8@0 zero')
  })
  slow([section(9, 0, free()), section(5, 0, free(), free())], [], '1 2 0 ; 9:1 5:2 ; ; held 0')
  slow([section(9, 0, free()), section(5, 0, free(), left([9, 0]), free())], [], '1 0 2 3 ; 9:1 5:3 ; ; held 0')
  slow([section(9, 0, free()), section(5, 0, free(), left([9, 0]), free())], [[9, [[0, 1]]]], '1 2 3 0 ; 9:1 5:3 ; ; held 1 9.0.1')
  slow([section(9, 0, skip(1), free()), section(5, 0, free(), left([9, 0]), free())], [], '2 0 1 ; 9:2 5:1 ; 5>9:0 ; held 0')
  slow([section(5, 0, left([9, 0])), section(9, 0, left([5, 0]))], [], '; 9:0 5:0 ; 9>5:0 5>9:0 ; held 0')
  w(c.heldSlowly(3, bytes(C), bytes('00')), '12@0 zero')
  w(c.heldSlowly(1, bytes(C), bytes('01')), '1@0 zero')
  w(c.heldSlowly(1, bytes('02 01 09'), bytes('01')), '1@3 zero')
  w(c.heldSlowly(1, bytes(C), bytes('01 05 01 00 01'), { heldRows: 0 }), '8@0 zero')
}

const order = () => {
  // An unknown form comes first: no byte is there, rows are none, the held ids are bad.
  for (const form of [0, 3, 4, 255]) {
    refused('12@0', form, '', '', { blockRows: 0, rangeRows: 0, heldRows: 0, orderRows: 0 })
    refused('12@0', form, C, '00')
  }
  // The update comes before the held ids, its rows too; then the held ids, at place 0; then the order's rows. A client twice is none of them, nor are two
  // entries of one clock; a range ends at 2^31 - 1 at most, and an empty one has an end too.
  const bad = [['1', ''], ['1', '01 05'], ['1', '01 05 01'], ['1', '01 05 01 00'], ['1', '02 05 01 00 01'], ['1', '01 05 02 00 01'],
    ['2', '80 80 80 80 80 80 80 80 80'], ['2', '01 05 ff ff ff ff ff ff ff ff ff'], ['2', '01 05 01 00 80 80 80 80 80 80 80 80 80'],
    ['3', '41'], ['3', '01 80 80 80 80 80 80 80 10'], ['3', '01 05 01 80 80 80 80 08 01'], ['3', '01 05 01 00 80 80 80 80 08'],
    ['3', '01 05 01 ff ff ff ff 07 01'], ['3', '01 05 01 01 ff ff ff ff 07'], ['8', '01 05 01 00 01', { heldRows: 0 }],
    ['8', '01 09 02 00 01 01 01', { heldRows: 1 }], ['8', '02 09 01 00 01 05 02 00 01 01 00', { heldRows: 1 }], ['3', '01 05 02 00 01 ff ff ff ff 07 01', { heldRows: 1 }],
    ['1', '01 05 02 00 01 01', { heldRows: 1 }]]
  for (const [number, ids, lent] of bad) {
    refused('1@5', 1, '01 01 05 00 82', ids, lent)
    refused('5@4', 1, '01 01 05 00 82 09 00', ids, lent)
    refused('6@8', 2, '00 00 00 00 00 00 02 01 ff 00 00 00 00 00', ids, lent)
    refused('4@5', 1, '02 00 05 00 00 05', ids, { ...lent, orderRows: 0 })
    refused('8@4', 1, C, ids, { ...lent, blockRows: 0 })
    refused('8@7', 2, D, ids, { ...lent, blockRows: 0, rangeRows: 0, orderRows: 0 })
    refused('8@6', 1, '00 01 05 02 00 01 01 01', ids, { ...lent, blockRows: 0, rangeRows: 1 })
    refused(`${number}@0`, 1, C, ids, lent)
    refused(`${number}@0`, 2, D, ids, { ...lent, blockRows: 1, rangeRows: 0, orderRows: 0 })
    refused(`${number}@0`, 1, A, ids, { ...lent, blockRows: 0, rangeRows: 0, orderRows: 0 })
  }
  for (const ids of ['02 05 01 00 01 05 01 00 01', '02 05 00 05 00', '01 05 02 00 01 00 01', '01 05 01 ff ff ff ff 07 00', '01 05 01 fe ff ff ff 07 01']) {
    if (!held(1, C, ids).startsWith('0 0 ; 5:1 ; ; held ')) throw new Error(`held ids that are read: ${ids}`)
  }
  // Rows of each kind, one after the other; pending blocks take no order row, Skips do.
  refused('8@4', 1, C, '00', { blockRows: 0, orderRows: 1 })
  refused('8@0', 1, C, '00', { blockRows: 1, orderRows: 0 })
  refused('8@0', 1, '01 01 05 00 0a 02 00', '00', { orderRows: 0 })
  w(held(1, '01 01 05 00 81 09 00 01 00', '00', { blockRows: 1, rangeRows: 0, heldRows: 0, orderRows: 0 }),
    '0 ; 5:0 ; 5>9:0 ; held 0 ; blocks 1 5.0.1.deleted.9:0.-.-.-.-.-.-.- ranges 0 zero')
  refused('8@0', 1, '01 01 05 00 81 09 00 01 00', '01 09 01 00 01', { blockRows: 1, rangeRows: 0, heldRows: 1, orderRows: 0 })
  // 64 clients, in the update and among the held; 65 are 3.
  const clients = many(64, k => k)
  const falling = [...clients].reverse()
  const chain = form => s.update(form, { sections: clients.map(k => section(k, 0, left([k + 1, 2]))) })
  const list = word => falling.map(word).join(' ')
  for (const form of forms) {
    answers(form, chain(form), [0], `; ${list(k => `${k}:0`)} ; ${list(k => `${k}>${k + 1}:2`)} ; held 0`)
    answers(form, chain(form), c.heldBytes(clients.map(k => [k + 1, [[2, 1]]])),
      `${list(k => k)} ; ${list(k => `${k}:1`)} ; ; held 64 ${list(k => `${k + 1}.2.1`)}`)
    // What they take starts at 0, so it holds no id that is waited for.
    answers(form, chain(form), c.heldBytes([[64, [[2, 1]]]]), `63 ; ${list(k => `${k}:${k === 63 ? 1 : 0}`)} ; ${falling.slice(1).map(k => `${k}>${k + 1}:2`).join(' ')} ; held 1 64.2.1`)
    w(c.held(form, chain(form), c.heldBytes(many(65, k => [k, [[2, 1]]]))), '3@0 zero')
  }
  // As many rows as a case may lend, all used, and one more.
  const many512 = n => s.update(2, { sections: [section(5, 0, ...many(n, () => gc(1)))] })
  answers(2, many512(512), [0], `${many(512, k => k).join(' ')} ; 5:512 ; ; held 0`)
  w(c.held(2, many512(513), [0]), '8@7 zero')
  const apart = n => c.heldBytes([[9, many(n, k => [2 * (n - 1 - k), 1])]])
  const kept = `held 1024 ${many(1024, k => `9.${2 * k}.1`).join(' ')}`
  both([section(5, 0, left([9, 2046]))], [[9, many(1024, k => [2 * (1023 - k), 1])]], `0 ; 5:1 ; ; ${kept}`)
  both([section(5, 0, left([9, 1023]))], [[9, many(1024, k => [2 * (1023 - k), 1])]], `; 5:0 ; 5>9:1023 ; ${kept}`)
  w(c.held(1, bytes(C), apart(1025)), '8@0 zero')
}

module.exports = { all: () => [small, paper, holds, named, turns, ranges, sweeps, order].forEach(part => part()) }
