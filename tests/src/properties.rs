//! What the demands say of every good network, tested of the model's results.
//!
//! The archive's results are compared with the model's elsewhere; what holds
//! of the one then holds of the other.

use crate::compare::Comparer;
use crate::model::links;
use crate::model::remaining::Remaining;
use crate::net::Net;
use crate::words::{self, Table};

/// Kinds of plan, counted to see that the networks tried have all of them.
pub const SHAPES: [&str; 11] = [
    "strong", "nothing but alone", "with alone", "more sinks", "turned round", "two ring", "two back",
    "ring and back", "turned with two ring", "turned with two back", "ring, chain of three and back",
];

/// The model's methods on a good network.
pub fn of(net: &Net) -> Remaining<'_> {
    Remaining::new(net.zones, &net.tails, &net.heads, &net.gone)
}

/// Tests one good network and gives the table of what reaches what.
pub fn hold(to: &mut Comparer, net: &Net) -> Table {
    let table = Table::new(net);

    let model = of(net);
    let yes = model.strong();
    to.hold(yes == table.strong(), || format!("model: strong not as by the words: {net}"));

    let plan = model.plan();
    let by_words = words::plan(net, &table);
    to.hold(plan == by_words, || format!("model: plan not as by the words: {net}\n    {plan:?}\n    {by_words:?}"));
    let fewest = if yes { 0 } else { plan.sources.max(plan.sinks) + plan.alone };
    to.hold(plan.links.len() == fewest, || format!("model: number of links: {net}\n    {plan:?}"));
    let distinct = plan.links.iter().all(|link| link.from != link.to);
    to.hold(distinct, || format!("model: a link from a zone to itself: {net}\n    {plan:?}"));
    let tails: Vec<u16> = plan.links.iter().map(|link| link.from).collect();
    let heads: Vec<u16> = plan.links.iter().map(|link| link.to).collect();
    let stay = plan.links.iter().all(|link| !net.gone.contains(&link.from) && !net.gone.contains(&link.to));
    to.hold(stay, || format!("model: a link at a withdrawn zone: {net}\n    {plan:?}"));
    to.hold(of(&net.with(&tails, &heads)).strong(), || format!("model: not strong with its plan: {net}\n    {plan:?}"));

    let arcs = model.skeleton();
    let by_words = words::skeleton(net, &table);
    to.hold(arcs == by_words, || {
        format!("model: skeleton not as by the words: {net}\n    {arcs:?}\n    {by_words:?}")
    });
    let (tails, heads) = arcs.iter().copied().unzip();
    let skeleton = Net { tails, heads, ..net.clone() };
    to.hold(arcs.len() <= net.tails.len(), || format!("model: skeleton has more arcs: {net}\n    {skeleton}"));
    to.hold(Table::new(&skeleton) == table, || format!("model: skeleton reaches other zones: {net}\n    {skeleton}"));
    let again = of(&skeleton).skeleton();
    to.hold(again == arcs, || format!("model: skeleton's skeleton is another: {net}\n    {skeleton}\n    {again:?}"));
    let other = of(&skeleton).plan();
    to.hold(other == plan, || format!("model: skeleton's plan is another: {net}\n    {skeleton}\n    {other:?}"));

    count(to, yes, &plan);
    table
}

fn count(to: &mut Comparer, strong: bool, plan: &links::Plan) {
    let many = |why: u16| plan.links.iter().filter(|link| link.why == why).count();
    let (ring, chain, back) = (many(links::RING), many(links::CHAIN), many(links::BACK));
    let turned = plan.sources > plan.sinks;
    let met = [
        strong,
        !strong && plan.sources == 0,
        plan.sources > 0 && plan.alone > 0,
        plan.sources < plan.sinks,
        turned,
        ring > 1,
        back > 1,
        ring > 0 && back > 0,
        turned && ring > 1,
        turned && back > 1,
        ring > 0 && chain > 2 && back > 0,
    ];
    for (shape, met) in met.into_iter().enumerate() {
        to.shapes[shape] += u64::from(met);
    }
}
