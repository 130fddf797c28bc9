//! stack [COUNT]: the most stack that Check, Evaluate, both in one call and a merge were seen to take, over tall tables made by hand,
//! COUNT generated cases (5,000) and as many generated merges. The stack below the caller is painted, and after the call the lowest byte
//! that has changed is looked for.

use differential::{case, sheet_length, Case};
use falgrumi::MAX_VALUE_BYTES;
use reference::build::Draft;
use reference::generate::{Class, Generator};
use reference::kinds::Kind;
use reference::table::{MAX_HEIGHT, MAX_IDENTIFIERS};
use reference::values::{pair, set, Value};

const PAINT: u8 = 0xA5;
/// How far below the caller the stack is painted, and how much below it is left to the painting itself.
const DEPTH: usize = 1 << 20;
const NEAR: usize = 4096;

/// The bytes of stack that `run` takes below this function's frame; NEAR at least.
#[inline(never)]
fn taken(run: &dyn Fn()) -> usize {
    let here = 0u8;
    // A number, so that the compiler knows nothing of what lies around it.
    let top = std::hint::black_box(std::ptr::addr_of!(here) as usize);
    // The thread's stack is larger than DEPTH, so all that is painted and read lies in it, below the frames in use.
    for at in NEAR..DEPTH {
        unsafe { ((top - at) as *mut u8).write_volatile(PAINT) };
    }
    run();
    let untouched = (NEAR..DEPTH).rev().take_while(|&at| unsafe { ((top - at) as *const u8).read_volatile() } == PAINT);
    DEPTH - untouched.count()
}

/// An integer in so many singletons.
fn singletons(count: usize, n: i32) -> Value {
    (0..count).fold(Value::Integer(n), |value, _| set(vec![value]))
}

/// 256 cells, one in the other.
fn nested() -> Value {
    singletons(255, 1)
}

/// Pairs whose second part is a pair, 255 cells.
fn chain() -> Value {
    (0..127).fold(Value::Integer(1), |value, _| pair(Value::Integer(1), value))
}

/// A set of two members of 127 cells each that differ in the innermost: their order is decided there.
fn twins() -> Value {
    set([1, 2].map(|n| singletons(126, n)).to_vec())
}

/// The case with a value for each free identifier; with `more`, unused identifiers that have the first value too, as many as the table can
/// have, so that the values take the most room.
fn filled(mut draft: Draft, mut values: Vec<Value>, more: bool) -> Case {
    while more && draft.flags.len() < MAX_IDENTIFIERS as usize {
        draft.identifier(0);
        values.push(values[0].clone());
    }
    case(&draft, &values)
}

/// x = y under `count` negations.
fn negations(count: usize, value: &Value, more: bool) -> Case {
    let mut draft = Draft::default();
    let names = [draft.identifier(0), draft.identifier(0)];
    let sides = names.map(|x| draft.using(x));
    let mut root = draft.two(Kind::Equal, sides[0], sides[1]);
    for _ in 0..count {
        root = draft.one(Kind::Not, root);
    }
    filled(draft, vec![value.clone(), value.clone()], more)
}

/// A quantifier or comprehension in the body of another, as deep as the height allows, over x = y.
fn binders(select: bool, value: &Value, more: bool) -> Case {
    let mut draft = Draft::default();
    let names = [draft.identifier(0), draft.identifier(0)];
    let range = draft.identifier(0);
    let sides = names.map(|x| draft.using(x));
    let mut body = draft.two(Kind::Equal, sides[0], sides[1]);
    // A comprehension stands in its parent's body as one side of an equality.
    let levels = MAX_HEIGHT as usize - 2;
    for _ in 0..if select { levels / 2 } else { levels } {
        let members = draft.using(range);
        let bound = draft.identifier(1);
        if select {
            let chosen = draft.node(Kind::Comprehension, bound, members, body);
            let whole = draft.using(range);
            body = draft.two(Kind::Equal, chosen, whole);
        } else {
            body = draft.node(Kind::ForAll, bound, members, body);
        }
    }
    filled(draft, vec![value.clone(), value.clone(), set(vec![Value::Integer(1)])], more)
}

/// x0 = 1, and three more identifiers, each the one before in 21 singletons: the type of the last weighs 64, as deep as a type can be.
fn deep_types() -> Case {
    let mut draft = Draft::default();
    let mut last = draft.identifier(0);
    let (name, one) = (draft.using(last), draft.integer(1));
    let mut root = draft.two(Kind::Equal, name, one);
    for _ in 0..3 {
        let mut inner = draft.using(last);
        for _ in 0..21 {
            inner = draft.one(Kind::Singleton, inner);
        }
        last = draft.identifier(0);
        let name = draft.using(last);
        let equal = draft.two(Kind::Equal, name, inner);
        root = draft.two(Kind::And, root, equal);
    }
    case(&draft, &[])
}

fn made() -> Vec<Case> {
    let mut cases = vec![deep_types()];
    for value in [Value::Integer(1), nested(), chain(), twins()] {
        for more in [false, true] {
            cases.extend([0, MAX_HEIGHT as usize - 2].map(|count| negations(count, &value, more)));
            cases.extend([false, true].map(|select| binders(select, &value, more)));
        }
    }
    cases
}

/// Two sets to be merged, and others as heavy as the first, as many as a table can have. Members that are nested are told apart by their
/// innermost integer. The unions of the first and last two weigh 511.
fn made_merges() -> [Case; 3] {
    let every_second = |from: i32| set((from..510).step_by(2).map(Value::Integer).collect());
    let sets = [
        [nested(), singletons(255, 2)],
        [twins(), singletons(127, 2)],
        [every_second(0), every_second(1)],
    ];
    sets.map(|two| {
        let mut draft = Draft::default();
        for _ in &two {
            draft.identifier(0);
        }
        filled(draft, two.to_vec(), true)
    })
}

fn merge_stack(generator: &mut Generator, count: u64) -> usize {
    let generated = (0..count).map(|_| generator.merge_sample());
    let generated = generated.map(|(table, values)| Case { table, values });
    let cells = std::cell::RefCell::new([0; MAX_VALUE_BYTES]);
    let stacks = made().into_iter().chain(made_merges()).chain(generated).map(|case| {
        taken(&|| {
            let _ = falgrumi::merge_into(&case.table, &case.values, &mut *cells.borrow_mut());
        })
    });
    stacks.fold(0, usize::max)
}

fn measure(count: u64) {
    let mut generator = Generator::new(3, false, None);
    let made = made().into_iter().map(|case| (sheet_length(&case.table), case));
    let generated = (0..count).map(|number| {
        let sample = generator.sample(Class::ALL[number as usize % Class::ALL.len()]);
        let case = Case {
            table: sample.table,
            values: sample.values,
        };
        (sample.sheet as usize, case)
    });
    let (mut check, mut evaluate, mut both) = (0, 0, 0);
    for (length, case) in made.chain(generated) {
        let sheet = std::cell::RefCell::new(vec![0; length]);
        check = check.max(taken(&|| {
            let _ = falgrumi::check_into(&case.table, &mut sheet.borrow_mut());
        }));
        evaluate = evaluate.max(taken(&|| {
            let _ = falgrumi::evaluate(&case.table, &case.values, 10_000);
        }));
        both = both.max(taken(&|| {
            let _ = falgrumi::checked_evaluation(&case.table, &mut sheet.borrow_mut(), &case.values, 10_000);
        }));
    }
    let merge = merge_stack(&mut generator, count);
    println!("stack: Check {check} bytes, Evaluate {evaluate} bytes, a checked evaluation {both} bytes, a merge {merge} bytes");
}

fn main() {
    let count = std::env::args().nth(1).map_or(5_000, |word| word.parse().expect("a number of cases"));
    let thread = std::thread::Builder::new().stack_size(4 * DEPTH).spawn(move || measure(count));
    thread.expect("a thread").join().expect("no panic");
}
