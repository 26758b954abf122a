//! The plan as a picture: two rings of stretches, sending inside and receiving outside, and the resends between them.

mod geometry;
mod labels;
mod legend;
mod resends;
mod rings;
mod writing;

use crate::asked::Asked;
use crate::plan::Plan;
use rings::Ring;

const HEAD: &str = "\
<svg xmlns=\"http://www.w3.org/2000/svg\" width=\"800\" height=\"920\" viewBox=\"0 0 800 920\">
<defs>
<pattern id=\"hatch\" width=\"7\" height=\"7\" patternUnits=\"userSpaceOnUse\" patternTransform=\"rotate(45)\">
<rect width=\"7\" height=\"7\" fill=\"#d8d8d8\"/>
<rect width=\"2.5\" height=\"7\" fill=\"#9a9a9a\"/>
</pattern>
</defs>
<style>
";

const STYLE: &str = include_str!("style.css");

const GROUND: &str = "\
</style>
<rect width=\"800\" height=\"920\" fill=\"#ffffff\"/>
";

/// The picture of a plan, as SVG. The same plan always gives the same bytes.
pub fn draw(asked: &Asked, plan: &Plan) -> String {
    let sending = Ring {
        side: &asked.sending,
        inner: 158.0,
        outer: 214.0,
        shades: ["sending-even", "sending-odd"],
        first: plan.first.sender,
    };
    let receiving = Ring {
        side: &asked.receiving,
        inner: 294.0,
        outer: 350.0,
        shades: ["receiving-even", "receiving-odd"],
        first: plan.first.receiver,
    };
    [
        HEAD,
        STYLE,
        GROUND,
        &legend::title(asked),
        &sending.draw(),
        &receiving.draw(),
        &resends::draw(asked, plan),
        &legend::middle(asked, plan),
        &legend::meanings(resends::go_twice_round(asked, plan)),
        "</svg>\n",
    ]
    .concat()
}
