//! Builds the type of a drive as inference would leave it, simplifies it and prints it, and holds two fixes against it. Then a
//! node with a name that isn't in the table is refused, the name is added, and the node is stored.
//!
//!     cargo run --example drive

use coombtray::{AttrSetTy, Field, Names, OutputTy, PrimitiveTy, Refusal, TyRef, TypeArena, Value};

/// What a fix holds: an angle may be missing, and each has a variable that inference left beside its type.
fn fix(arena: &mut TypeArena) -> Result<TyRef, Refusal> {
    let float = arena.intern(OutputTy::Primitive(PrimitiveTy::Float))?;
    let null = arena.intern(OutputTy::Primitive(PrimitiveTy::Null))?;
    let open = arena.intern(OutputTy::TyVar(7))?;
    let angle = arena.intern(OutputTy::Union(vec![open, float, null]))?;
    let mut attrs = AttrSetTy::from_internal([("chainage", float), ("roll", angle)], true);
    attrs.fields.insert("pitch".into(), Field::optional(angle));
    arena.intern(OutputTy::AttrSet(attrs))
}

/// A function from a fix, and from anything at all that it hands on, to the next steering command.
fn drive(arena: &mut TypeArena) -> Result<TyRef, Refusal> {
    let fix = fix(arena)?;
    let log = arena.intern(OutputTy::TyVar(3))?;
    let unseen = arena.intern(OutputTy::TyVar(9))?;
    let never = arena.intern(OutputTy::Bottom)?;
    let int = arena.intern(OutputTy::Primitive(PrimitiveTy::Int))?;
    let inner = arena.intern(OutputTy::Union(vec![int, unseen]))?;
    let jacks = arena.intern(OutputTy::Union(vec![never, inner, int]))?;
    let jacks = arena.intern(OutputTy::List(jacks))?;
    let command = AttrSetTy::from_internal([("jacks", jacks), ("log", log)], false);
    let command = arena.intern(OutputTy::AttrSet(command))?;
    let logged = arena.intern(OutputTy::Lambda {
        param: log,
        body: command,
    })?;
    arena.intern(OutputTy::Lambda {
        param: fix,
        body: logged,
    })
}

/// Whether a set of these fields is a fix that the drive takes.
fn takes(arena: &TypeArena, ty: TyRef, fields: &[(&str, Value)]) -> Result<bool, Refusal> {
    let OutputTy::Lambda { param, .. } = arena.get(ty)? else {
        unreachable!("a drive is a function")
    };
    let fields = fields.iter().cloned();
    let fix = Value::Set(fields.map(|(name, value)| (name.into(), value)).collect());
    arena.fits(param, &fix)
}

fn main() -> Result<(), Refusal> {
    let mut arena = TypeArena::new(Names::new(["roll", "pitch", "chainage", "jacks", "log"])?);
    let given = drive(&mut arena)?;
    println!("before: {}", arena.display(given)?);
    let simplified = arena.simplify(given)?;
    println!("after:  {}", arena.display(simplified.root)?);
    println!("passes: {}", simplified.passes);
    let shown = arena.normalize_vars(simplified.root)?;
    println!("shown:  {}", arena.display(shown)?);

    let chainage = ("chainage", Value::Float(41.5));
    let both = [chainage.clone(), ("roll", Value::Null)];
    println!("takes chainage and roll: {}", takes(&arena, shown, &both)?);
    let alone = [chainage];
    println!("takes chainage alone: {}", takes(&arena, shown, &alone)?);

    let named = OutputTy::Named("steering".into(), shown);
    match arena.intern(named.clone()) {
        Ok(_) => unreachable!("the name isn't in the table"),
        Err(refusal) => println!("a name that isn't there: {refusal}"),
    }
    arena.add_names(["steering"])?;
    let named = arena.intern(named)?;
    println!("added:  {}", arena.display(named)?);
    Ok(())
}
