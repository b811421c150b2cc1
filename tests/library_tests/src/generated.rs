//! Many generated ids, which are indices in any order. `tools/test speed` counts the work of looking at
//! them.

use std::process::Abort;
use wast_tree::{
    Func, Gensym, Id, Index, Instruction, ModuleField, Seq, Span, TreeBuilder, TypeUse,
    discard_fields, well_formed,
};

/// The number of ids.
const COUNT: usize = 256;

fn at(offset: usize) -> Span {
    Span { offset }
}

/// Returns ids that a counter generates, in order.
fn generated<'a>(rt: &impl Abort) -> [Id<'a>; COUNT] {
    let mut gensym = Gensym::new(1);
    let mut ids = [Id::new("", at(0)); COUNT];
    for i in 0..COUNT {
        ids[i] = gensym.generate(at(i)).expect(rt, "counter");
    }
    ids
}

#[test]
fn generated_ids_in_any_order(rt: HostRuntime) {
    let alloc = rt.alloc();
    let mut maker = TreeBuilder::new(alloc);
    let mut fields = Seq::new(alloc);
    let ids = generated(&rt);
    for i in 0..COUNT {
        let mut instrs = Seq::new(alloc);
        maker.push_instruction(
            &mut instrs,
            Instruction::call(Index::Id(ids[31 * i % COUNT])),
        );
        let func = Func::new(
            alloc,
            at(i),
            Some(ids[i]),
            TypeUse::none(),
            Seq::new(alloc),
            instrs,
        );
        maker.push_field(&mut fields, ModuleField::Func(func));
    }
    let fields = maker.finish(fields).expect(&rt, "memory");
    let is_right = well_formed(fields.as_slice());
    discard_fields(fields);
    assert!(rt; is_right);
}
