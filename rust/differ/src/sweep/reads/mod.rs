//! Families of texts.

mod around;
mod characters;
mod columns;
mod commands;
mod counts;
mod escapes;
mod everywhere;
mod expressions;
mod frame;
mod ids;
mod lengths;
mod levels;
mod names;
mod orders;
mod parents;
mod places;
mod precedence;
mod rooms;
mod samples;
mod sequences;
mod sizes;
mod values;

use super::sweeper::Sweeper;

pub fn sweep(sweeper: &mut Sweeper) {
    values::sweep(sweeper);
    characters::sweep(sweeper);
    around::sweep(sweeper);
    escapes::sweep(sweeper);
    sequences::sweep(sweeper);
    everywhere::sweep(sweeper);
    names::sweep(sweeper);
    places::sweep(sweeper);
    orders::sweep(sweeper);
    commands::sweep(sweeper);
    lengths::sweep(sweeper);
    levels::sweep(sweeper);
    rooms::sweep(sweeper);
    counts::sweep(sweeper);
    sizes::sweep(sweeper);
    columns::sweep(sweeper);
    ids::sweep(sweeper);
    precedence::sweep(sweeper);
}
