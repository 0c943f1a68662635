ghost use Rattle.std.specs.Prelude.{◌≡◌, [], IfOk};
ghost use Rattle.jl_analysis.specs.Summary.{summary};

use jl_analysis::Analysis;
use jl_rules_type::{
    BitsOfNothing, LooseEqual, NanMade, ObjectJoined, OddCompare, PutOnPrimitive, TypeofText,
    UndefinedJoined, UndefinedKey, WrappedCondition,
};
use jl_rules_use::{
    ExtraArguments, ForInArray, GlobalThis, LatePrototype, MixedNew, NoRadix, ObjectPrototypeWrite,
    OddPrototype, ShadowWrite, WrapperMade,
};
use std::alloc::{AllocError, Global};

/// A checker of each rule on types and values.
#[derive(Drop)]
pub(crate) struct TypeCheckers {
    pub(crate) nan_made: Box<NanMade>,
    pub(crate) undefined_joined: Box<UndefinedJoined>,
    pub(crate) object_joined: Box<ObjectJoined>,
    pub(crate) undefined_key: Box<UndefinedKey>,
    pub(crate) put_on_primitive: Box<PutOnPrimitive>,
    pub(crate) wrapped_condition: Box<WrappedCondition>,
    pub(crate) loose_equal: Box<LooseEqual>,
    pub(crate) odd_compare: Box<OddCompare>,
    pub(crate) typeof_text: Box<TypeofText>,
    pub(crate) bits_of_nothing: Box<BitsOfNothing>,
}

/// A checker of each rule on the use of objects and functions.
#[derive(Drop)]
pub(crate) struct UseCheckers {
    pub(crate) shadow_write: Box<ShadowWrite>,
    pub(crate) mixed_new: Box<MixedNew>,
    pub(crate) object_prototype_write: Box<ObjectPrototypeWrite>,
    pub(crate) odd_prototype: Box<OddPrototype>,
    pub(crate) late_prototype: Box<LatePrototype>,
    pub(crate) for_in_array: Box<ForInArray>,
    pub(crate) extra_arguments: Box<ExtraArguments>,
    pub(crate) wrapper_made: Box<WrapperMade>,
    pub(crate) no_radix: Box<NoRadix>,
    pub(crate) global_this: Box<GlobalThis>,
}

/// Checkers of the rules on types and values that have been told of no operation.
pub(crate) fn type_checkers(alloc: Global) -> Result<TypeCheckers, AllocError>
    ensures nan_made { IfOk result (λ all. ⟦<NanMade as Analysis>⟧.kept all.nan_made.value ≡ summary 1 []) }
    ensures undefined_joined { IfOk result (λ all.
        ⟦<UndefinedJoined as Analysis>⟧.kept all.undefined_joined.value ≡ summary 2 []) }
    ensures object_joined { IfOk result (λ all.
        ⟦<ObjectJoined as Analysis>⟧.kept all.object_joined.value ≡ summary 3 []) }
    ensures undefined_key { IfOk result (λ all.
        ⟦<UndefinedKey as Analysis>⟧.kept all.undefined_key.value ≡ summary 4 []) }
    ensures put_on_primitive { IfOk result (λ all.
        ⟦<PutOnPrimitive as Analysis>⟧.kept all.put_on_primitive.value ≡ summary 5 []) }
    ensures wrapped_condition { IfOk result (λ all.
        ⟦<WrappedCondition as Analysis>⟧.kept all.wrapped_condition.value ≡ summary 6 []) }
    ensures loose_equal { IfOk result (λ all. ⟦<LooseEqual as Analysis>⟧.kept all.loose_equal.value ≡ summary 7 []) }
    ensures odd_compare { IfOk result (λ all. ⟦<OddCompare as Analysis>⟧.kept all.odd_compare.value ≡ summary 8 []) }
    ensures typeof_text { IfOk result (λ all. ⟦<TypeofText as Analysis>⟧.kept all.typeof_text.value ≡ summary 9 []) }
    ensures bits_of_nothing { IfOk result (λ all.
        ⟦<BitsOfNothing as Analysis>⟧.kept all.bits_of_nothing.value ≡ summary 10 []) }
{
    Ok(TypeCheckers {
        nan_made: Box::new(alloc, NanMade::fresh(alloc))?,
        undefined_joined: Box::new(alloc, UndefinedJoined::fresh(alloc))?,
        object_joined: Box::new(alloc, ObjectJoined::fresh(alloc))?,
        undefined_key: Box::new(alloc, UndefinedKey::fresh(alloc))?,
        put_on_primitive: Box::new(alloc, PutOnPrimitive::fresh(alloc))?,
        wrapped_condition: Box::new(alloc, WrappedCondition::fresh(alloc))?,
        loose_equal: Box::new(alloc, LooseEqual::fresh(alloc))?,
        odd_compare: Box::new(alloc, OddCompare::fresh(alloc))?,
        typeof_text: Box::new(alloc, TypeofText::fresh(alloc))?,
        bits_of_nothing: Box::new(alloc, BitsOfNothing::fresh(alloc))?,
    })
}

/// Checkers of the rules on the use of objects and functions that have been told of no operation.
pub(crate) fn use_checkers(alloc: Global) -> Result<UseCheckers, AllocError>
    ensures shadow_write { IfOk result (λ all.
        ⟦<ShadowWrite as Analysis>⟧.kept all.shadow_write.value ≡ summary 11 []) }
    ensures mixed_new { IfOk result (λ all. ⟦<MixedNew as Analysis>⟧.kept all.mixed_new.value ≡ summary 12 []) }
    ensures object_prototype_write { IfOk result (λ all.
        ⟦<ObjectPrototypeWrite as Analysis>⟧.kept all.object_prototype_write.value ≡ summary 13 []) }
    ensures odd_prototype { IfOk result (λ all.
        ⟦<OddPrototype as Analysis>⟧.kept all.odd_prototype.value ≡ summary 14 []) }
    ensures late_prototype { IfOk result (λ all.
        ⟦<LatePrototype as Analysis>⟧.kept all.late_prototype.value ≡ summary 15 []) }
    ensures for_in_array { IfOk result (λ all. ⟦<ForInArray as Analysis>⟧.kept all.for_in_array.value ≡ summary 16 []) }
    ensures extra_arguments { IfOk result (λ all.
        ⟦<ExtraArguments as Analysis>⟧.kept all.extra_arguments.value ≡ summary 17 []) }
    ensures wrapper_made { IfOk result (λ all.
        ⟦<WrapperMade as Analysis>⟧.kept all.wrapper_made.value ≡ summary 18 []) }
    ensures no_radix { IfOk result (λ all. ⟦<NoRadix as Analysis>⟧.kept all.no_radix.value ≡ summary 19 []) }
    ensures global_this { IfOk result (λ all. ⟦<GlobalThis as Analysis>⟧.kept all.global_this.value ≡ summary 20 []) }
{
    Ok(UseCheckers {
        shadow_write: Box::new(alloc, ShadowWrite::fresh(alloc))?,
        mixed_new: Box::new(alloc, MixedNew::fresh(alloc))?,
        object_prototype_write: Box::new(alloc, ObjectPrototypeWrite::fresh(alloc))?,
        odd_prototype: Box::new(alloc, OddPrototype::fresh(alloc))?,
        late_prototype: Box::new(alloc, LatePrototype::fresh(alloc))?,
        for_in_array: Box::new(alloc, ForInArray::fresh(alloc))?,
        extra_arguments: Box::new(alloc, ExtraArguments::fresh(alloc))?,
        wrapper_made: Box::new(alloc, WrapperMade::fresh(alloc))?,
        no_radix: Box::new(alloc, NoRadix::fresh(alloc))?,
        global_this: Box::new(alloc, GlobalThis::fresh(alloc))?,
    })
}
